"""The machine by the tables of docs/profile.md, on dictionaries and lists, apart from the program: what each call answers, and what each
frame shows. It asks from scratch what names a stream and which layers a pixel has. Of rest and speed it knows nothing: calls come one
after another, and a frame ends before the next call."""

from lib.limits import (
    MOST_BYTES,
    MOST_CONTEXTS,
    MOST_DEPTH,
    MOST_DEVICES,
    MOST_ELEMENTS,
    MOST_INSERTED,
    MOST_PLACE,
    MOST_SIDE,
    MOST_SOURCES,
    MOST_STREAMS,
)

CODES = ("Ok", "OutOfMemory", "IllegalArgument", "Unsupported", "NotSupported", "BadAttribute", "InUse", "Busy", "NoBuffer", "BadDevice",
         "BadHandle", "Inconsistency", "Limit")
PIXEL_BYTES = {"rgba": 4, "pre": 4, "rgbx": 4, "a8": 1}
ALPHA, SOURCE, MASK = 1, 2, 4
FILTERS = {"none": 0, "faster": 1, "better": 2}
FLAGS = {"none": 0, "alpha": ALPHA, "source": SOURCE, "mask": MASK}
RECTS, HANDLES = ("dest", "srcrect"), ("source", "mask")
ONE_NUMBER = {"flip": (0, 1), "rotation": (0, 90, 180, 270), "filter": (0, 1, 2), "alpha": range(256)}
# Reasons of refusals that come at several places, and kinds of objects as they are called.
MAY_BE = {"flip": "flip is 0 or 1", "rotation": "a rotation is 0, 90, 180 or 270", "filter": "a filter is none, faster or better",
          "alpha": "alpha is from 0 to 255"}
SIDES = f"width and height are from 1 to {MOST_SIDE:,}"
OUT = "the write buffer of {} is out"
NOT_INSERTED = "{} is not inserted"
ALL_SOURCES = f"there are {MOST_SOURCES} sources and masks"
CALLED = {"wsource": "source of a pipeline"}
OF_DISPLAY = ("pset", "pget", "attach", "lset", "lget", "lport", "wsource", "del_wsource", "lsource", "commit_device", "commit_port",
              "commit_pipe")


class Refusal(Exception):
    """A call is refused with a code and a value, and for a reason: a text, with a `{}` for each thing that it is about."""

    def __init__(self, code, value=0, why="", things=()):
        super().__init__(code)
        self.code = CODES.index(code)
        self.value = value
        self.why = (why, things)


def need(holds, code, why, *things, value=0):
    """Refuses a call for a reason where something does not hold."""
    if not holds:
        raise Refusal(code, value, why, things)


class Thing:
    """An object of the machine: its kind, its handle, and what else it has."""

    def __init__(self, kind, **has):
        self.kind = kind
        self.handle = 0
        self.__dict__.update(has)


def new_stream(width, height, form, buffers, depth=0):
    """A stream whose buffers are all free, plain or a queue of a depth. What is out is None, `client` or `frame`."""
    return Thing("stream", w=width, h=height, form=form, buffers=buffers, depth=depth, out=None, waiting=[], read=None)


def is_blocked(stream, waiting, read):
    """Whether no buffer of a stream may be taken, with these images waiting and this one read."""
    if stream.depth:
        return len(waiting) == stream.depth
    return stream.buffers == len(waiting) + sum(each is not None for each in (stream.out, read))


def add(stream, image):
    """A finished image waits: alone in a plain stream, after the others in a queue."""
    stream.waiting = [*stream.waiting, image] if stream.depth else [image]


def taken(stream):
    """What waits and what is read once a frame took its image."""
    return (stream.waiting[1:], stream.waiting[0]) if stream.waiting else ([], stream.read)


def bytes_of(stream):
    """The bytes of a stream's buffers."""
    return stream.w * stream.h * PIXEL_BYTES[stream.form] * stream.buffers


def placed():
    """The attributes that elements and pipelines share, as they are at first."""
    return {"dest": (0, 0, 0, 0), "srcrect": (0, 0, 0, 0), "flip": 0, "rotation": 0, "filter": 0, "transparency": 0, "alpha": 255}


def layer_of(attributes, stream, mask=None):
    """A layer of a scene: attributes as they are now, and the streams that it names."""
    return Thing("layer", stream=stream, mask=mask, **{name: attributes[name] for name in placed()})


def is_within(rect, stream):
    """Whether a rectangle has sides and lies inside of a stream."""
    x, y, w, h = rect
    return w >= 1 and h >= 1 and x >= 0 and y >= 0 and x + w <= stream.w and y + h <= stream.h


def no_buffer(stream):
    """Tells why no buffer of a stream may be taken, with the stream."""
    if stream.depth:
        return f"as many images as its depth, {stream.depth}, wait in {{}}", stream
    return f"none of the {stream.buffers} buffers of {{}} is free", stream


def not_within(has, stream):
    """Tells why a source rectangle is refused, with a place for its stream."""
    x, y, w, h = has["srcrect"]
    if w < 1 or h < 1:
        return f"its source rectangle of {{}} is {w} by {h}, and has no pixel"
    return f"its source rectangle, {x} {y} {w} {h}, does not lie inside of {{}}, which is {stream.w} by {stream.h}" if stream else ""


def no_sides(sides):
    """Tells why a destination is refused."""
    return f"its destination is {sides[0]} by {sides[1]}, and a side is from 1 to {MOST_SIDE:,}"


def port_named(number):
    """Tells a port in words, or none for 0."""
    return f"port {number}" if number else "no port"


def number_of(name, known, index):
    """Answers a number of an attribute, which has these."""
    counted = f"{len(known)} numbers, counted from 0" if len(known) > 1 else "one number, of index 0"
    need(0 <= index < len(known), "IllegalArgument", f"{name} has {counted}")
    return known[index]


class Machine:
    """All objects by their handles, and what has none: streams, ports, pipelines and the display's register."""

    def __init__(self, ports, pipes):
        self.made = 0
        # Why the last call was refused.
        self.why = ("", ())
        self.live = {}
        self.streams = []
        self.ports = []
        self.register = 0
        for modes in ports:
            screen = new_stream(*modes[0], "rgbx", 3)
            self.streams.append(screen)
            cached = {"mode": 1, "background": (0, 0, 0), "power": 1}
            self.ports.append(Thing("port", modes=modes, screen=screen, attached=1, cached=cached, committed=dict(cached)))
        self.pipes = []
        for _ in range(pipes):
            cached = placed() | {"port": 0}
            self.pipes.append(Thing("pipe", cached=cached, committed=dict(cached), request=None, current=None, pending=None))

    # What is found, made and kept.

    def find(self, handle, kind, device=None, code="BadHandle"):
        """The live object of a handle, which must be of this kind, and of this device where one is given."""
        thing = self.live.get(handle)
        need(thing is not None, code, f"{{}} is no live {CALLED.get(kind, kind)}", handle)
        need(thing.kind == kind, code, f"{{}} is no {CALLED.get(kind, kind)}", thing)
        need(device is None or thing.device is device, code, "{} is not of {}", thing, device)
        return thing

    def of_kind(self, *kinds):
        """The live objects of some kinds, by rising handle."""
        return [self.live[handle] for handle in sorted(self.live) if self.live[handle].kind in kinds]

    def make(self, thing, is_denied):
        """Gives an object the next handle, unless memory is refused. Answers the handle."""
        need(not is_denied, "OutOfMemory", "there was no memory for it")
        self.made += 1
        thing.handle = self.made
        self.live[self.made] = thing
        return self.made

    def drop(self, *things):
        """Ends objects with all that is theirs."""
        for thing in things:
            if thing.kind == "device":
                self.drop(*[each for each in self.of_kind("context") if each.device is thing])
            if thing.kind == "context":
                self.drop(*[each for each in self.of_kind("element", "source", "mask") if each.context is thing])
            if thing.kind == "element" and thing in thing.context.order:
                thing.context.order.remove(thing)
            self.live.pop(thing.handle, None)

    def settle(self):
        """Drops the streams that nothing names."""
        named = [thing for thing in self.of_kind("stream")]
        named += [thing.stream for thing in self.of_kind("source", "mask", "wsource")]
        named += [thing.target for thing in self.of_kind("context")]
        layers = [layer for thing in self.of_kind("context") for layer in thing.committed.layers]
        named += [stream for layer in layers for stream in (layer.stream, layer.mask)]
        named += [stream for pipe in self.pipes for stream in (pipe.current, pipe.pending and pipe.pending[0])]
        named += [port.screen for port in self.ports]
        kept = {id(stream) for stream in named}
        self.streams = [stream for stream in self.streams if id(stream) in kept or stream.out]

    # A call with its answer.

    def call(self, verb, words, is_denied=False):
        """Makes a call of a script's line: its verb, and its words with handles and numbers as numbers. Answers code and value."""
        register = self.register_of(verb, words)
        self.why = ("", ())
        try:
            value = getattr(self, verb)(words, is_denied) or 0
            code = 0
        except Refusal as refusal:
            code, value, self.why = refusal.code, refusal.value, refusal.why
            if register is not None and register.register == 0:
                register.register = code
        if code == 0:
            self.settle()
        return code, value % 2**32

    def register_of(self, verb, words):
        """What keeps a refusal of a call: the display, a live device or nothing."""
        if verb in OF_DISPLAY:
            return self
        of_device = verb not in ("stream", "queue", "del_stream", "acquire", "post", "discard", "stat", "device", "derror")
        device = self.live.get(words[0]) if of_device else None
        return device if device is not None and device.kind == "device" else None

    def device_of(self, words):
        """The device that a call names first."""
        return self.find(words[0], "device", code="BadDevice")

    def named(self, words, kind):
        """The device that a call names first, and its object that it names second."""
        device = self.device_of(words)
        return device, self.find(words[1], kind, device)

    # Streams.

    def stream(self, words, is_denied):
        width, height, form, buffers = words
        need(1 <= width <= MOST_SIDE and 1 <= height <= MOST_SIDE, "IllegalArgument", SIDES)
        need(2 <= buffers <= 4, "IllegalArgument", "a plain stream has from 2 to 4 buffers")
        return self.keep(new_stream(width, height, form, buffers), is_denied)

    def queue(self, words, is_denied):
        width, height, form, depth = words
        need(1 <= width <= MOST_SIDE and 1 <= height <= MOST_SIDE, "IllegalArgument", SIDES)
        need(1 <= depth <= MOST_DEPTH, "IllegalArgument", f"the depth of a queue is from 1 to {MOST_DEPTH}")
        return self.keep(new_stream(width, height, form, depth + 1, depth), is_denied)

    def keep(self, stream, is_denied):
        """Keeps a new stream, and answers its handle."""
        need(len(self.streams) < MOST_STREAMS, "Limit", f"{MOST_STREAMS} streams are kept, the screens of the ports among them")
        total = sum(map(bytes_of, self.streams)) + bytes_of(stream)
        need(total <= MOST_BYTES, "Limit", f"all buffers together would have {total:,} bytes, and may have {MOST_BYTES:,}")
        handle = self.make(stream, is_denied)
        self.streams.append(stream)
        return handle

    def del_stream(self, words, _):
        self.drop(self.find(words[0], "stream"))

    def acquire(self, words, _):
        stream = self.find(words[0], "stream")
        need(stream.out is None, "Busy", OUT, stream)
        need(not is_blocked(stream, stream.waiting, stream.read), "NoBuffer", *no_buffer(stream))
        stream.out = "client"

    def stat(self, words, _):
        return len(self.streams) if words[0] == "streams" else sum(map(bytes_of, self.streams))

    # Devices and contexts.

    def device(self, _, is_denied):
        need(len(self.of_kind("device")) < MOST_DEVICES, "Limit", f"there are {MOST_DEVICES} devices")
        return self.make(Thing("device", register=0), is_denied)

    def del_device(self, words, _):
        self.drop(self.device_of(words))

    def error(self, words, _):
        device = self.device_of(words)
        told, device.register = device.register, 0
        return told

    def context(self, device, target, port, is_denied):
        """Makes a context that draws into a stream."""
        other = next((each for each in self.of_kind("context") if each.target is target), None)
        need(other is None, "InUse", "{} draws into {} already", other, target)
        need(len(self.of_kind("context")) < MOST_CONTEXTS, "Limit", f"there are {MOST_CONTEXTS} contexts")
        scene = Thing("scene", w=target.w, h=target.h, turn=0, background=(0, 0, 0, 255), layers=[])
        return self.make(Thing("context", device=device, target=target, port=port, active=False, order=[], rotation=0,
                               background=(0, 0, 0, 255), committed=scene), is_denied)

    def screen(self, words, is_denied):
        device = self.device_of(words)
        need(1 <= words[1] <= len(self.ports), "IllegalArgument", f"the ports are numbered from 1 to {len(self.ports)}")
        return self.context(device, self.ports[words[1] - 1].screen, words[1], is_denied)

    def offscreen(self, words, is_denied):
        device = self.device_of(words)
        stream = self.find(words[1], "stream")
        need(stream.form in ("pre", "rgbx"), "Unsupported", f"{{}} is {stream.form}, and a context draws into pre or rgbx", stream)
        return self.context(device, stream, 0, is_denied)

    def del_context(self, words, _):
        self.drop(self.named(words, "context")[1])

    def cset(self, words, _):
        _, context = self.named(words, "context")
        need(words[2] in ("rotation", "background"), "BadAttribute", f"{words[2]} is told, and not set")
        if words[2] == "rotation":
            need(words[3] in ONE_NUMBER["rotation"], "IllegalArgument", MAY_BE["rotation"])
            context.rotation = words[3]
        else:
            need(all(0 <= channel <= 255 for channel in words[3:7]), "IllegalArgument", "a channel is from 0 to 255")
            context.background = tuple(words[3:7])

    def cget(self, words, _):
        _, context = self.named(words, "context")
        lowest = context.order[0].handle if context.order else 0
        known = {"rotation": [context.rotation], "background": context.background, "width": [context.target.w],
                 "height": [context.target.h], "lowest": [lowest]}[words[2]]
        return number_of(words[2], known, words[3])

    def activate(self, words, _):
        self.named(words, "context")[1].active = True

    def deactivate(self, words, _):
        self.named(words, "context")[1].active = False

    def commit(self, words, _):
        _, context = self.named(words, "context")
        layers = []
        for place, element in enumerate(context.order, 1):
            layers.append(self.layer_for(element, 16 * place))
        background = context.background[:3] + (255,) if context.port else context.background
        context.committed = Thing("scene", w=context.target.w, h=context.target.h, turn=context.rotation, background=background,
                                  layers=layers)

    def layer_for(self, element, place):
        """Makes the layer of an inserted element, or refuses it by the first rule of a commit that it breaks, whose value has the place."""
        has = element.has
        source, mask = self.live.get(has["source"]), self.live.get(has["mask"])
        sides = has["dest"][2:]
        need(source is not None, "Inconsistency", "{}: its source is {}", element, has["source"], value=place + 1)
        is_inside = is_within(has["srcrect"], source.stream)
        need(is_inside, "Inconsistency", f"{{}}: {not_within(has, source.stream)}", element, source.stream, value=place + 2)
        need(all(1 <= side <= MOST_SIDE for side in sides), "Inconsistency", f"{{}}: {no_sides(sides)}", element, value=place + 3)
        if not has["transparency"] & MASK:
            return layer_of(has, source.stream)
        need(mask is not None, "Inconsistency", "{}: its mask is {}", element, has["mask"], value=place + 4)
        extent = (mask.stream.w, mask.stream.h)
        differ = f"its destination is {sides[0]} by {sides[1]}, and its mask, of {{}}, {extent[0]} by {extent[1]}"
        need(extent == sides, "Inconsistency", f"{{}}: {differ}", element, mask.stream, value=place + 4)
        return layer_of(has, source.stream, mask.stream)

    # Elements, sources and masks.

    def element(self, words, is_denied):
        device, context = self.named(words, "context")
        has_room = sum(each.context is context for each in self.of_kind("element")) < MOST_ELEMENTS
        need(has_room, "Limit", f"{{}} has {MOST_ELEMENTS} elements", context)
        has = placed() | {"source": 0, "mask": 0}
        return self.make(Thing("element", device=device, context=context, has=has), is_denied)

    def del_element(self, words, _):
        self.drop(self.named(words, "element")[1])

    def new_source(self, kind, words, is_denied):
        """Makes a source or a mask of a context."""
        device, context = self.named(words, "context")
        stream = self.find(words[2], "stream")
        wanted = "a8" if kind == "mask" else "rgba, pre or rgbx"
        need((stream.form == "a8") == (kind == "mask"), "Unsupported", f"{{}} is {stream.form}, and a {kind} shows {wanted}", stream)
        need(len(self.of_kind("source", "mask", "wsource")) < MOST_SOURCES, "Limit", ALL_SOURCES)
        return self.make(Thing(kind, device=device, context=context, stream=stream), is_denied)

    def source(self, words, is_denied):
        return self.new_source("source", words, is_denied)

    def mask(self, words, is_denied):
        return self.new_source("mask", words, is_denied)

    def del_source(self, words, _):
        self.drop(self.named(words, "source")[1])

    def del_mask(self, words, _):
        self.drop(self.named(words, "mask")[1])

    def set(self, words, _):
        device, element = self.named(words, "element")
        name, value = words[2], words[3:]
        if name in HANDLES:
            thing = self.find(value[0], name, device) if value[0] else None
            need(thing is None or thing.context is element.context, "IllegalArgument", "{} is of {}, and {} of {}", thing,
                 thing and thing.context, element, element.context)
        element.has[name] = self.value_of(name, value)

    def value_of(self, name, value):
        """The value of an attribute that elements and pipelines share, or of a handle, where it is in its range."""
        if name in RECTS:
            need(all(-MOST_PLACE <= place <= MOST_PLACE for place in value[:2]), "IllegalArgument",
                 f"x and y are from {-MOST_PLACE:,} to {MOST_PLACE:,}")
            need(all(0 <= side <= MOST_PLACE for side in value[2:4]), "IllegalArgument", f"width and height are from 0 to {MOST_PLACE:,}")
            return tuple(value[:4])
        if name == "transparency":
            need(0 <= value[0] <= 7 and value[0] & 6 != 6, "IllegalArgument", "source and mask do not go together")
        elif name not in HANDLES:
            need(value[0] in ONE_NUMBER[name], "IllegalArgument", MAY_BE[name])
        return value[0]

    def get(self, words, _):
        _, element = self.named(words, "element")
        return self.component(element.has, words[2], words[3])

    def component(self, has, name, index):
        """A component of an attribute."""
        return number_of(name, has[name] if isinstance(has[name], tuple) else [has[name]], index)

    def insert(self, words, _):
        device, element = self.named(words, "element")
        below = self.find(words[2], "element", device) if words[2] else None
        order = element.context.order
        need(below is None or below in order, "IllegalArgument", "{} is not inserted in {}", below, element.context)
        need(element in order or len(order) < MOST_INSERTED, "Limit", f"{{}} has {MOST_INSERTED} inserted elements", element.context)
        if below is element:
            return
        if element in order:
            order.remove(element)
        order.insert(order.index(below) + 1 if below else 0, element)

    def remove(self, words, _):
        _, element = self.named(words, "element")
        need(element in element.context.order, "IllegalArgument", NOT_INSERTED, element)
        element.context.order.remove(element)

    def neighbour(self, words, step):
        """The handle of the element next above or below."""
        _, element = self.named(words, "element")
        order = element.context.order
        need(element in order, "IllegalArgument", NOT_INSERTED, element)
        place = order.index(element) + step
        return order[place].handle if 0 <= place < len(order) else 0

    def above(self, words, _):
        return self.neighbour(words, 1)

    def below(self, words, _):
        return self.neighbour(words, -1)

    # The display.

    def numbered(self, things, number):
        """A port or a pipeline by its number."""
        kind = "port" if things is self.ports else "pipeline"
        known = f"its number is from 1 to {len(things)}" if things else "the script has none"
        need(1 <= number <= len(things), "BadHandle", f"there is no {kind} {number}: {known}")
        return things[number - 1]

    def pset(self, words, _):
        port = self.numbered(self.ports, words[0])
        name, value = words[1], words[2:]
        need(name in port.cached, "BadAttribute", f"{name} is told, and not set")
        ranges = {"mode": (1, len(port.modes)), "background": (0, 255), "power": (0, 1)}
        least, most = ranges[name]
        value = value[:3] if name == "background" else value[:1]
        need(all(least <= each <= most for each in value), "IllegalArgument", f"{name} has numbers from {least} to {most}")
        port.cached[name] = tuple(value) if name == "background" else value[0]

    def pget(self, words, _):
        port = self.numbered(self.ports, words[0])
        width, height = port.modes[port.committed["mode"] - 1]
        return self.component(port.cached | {"width": width, "height": height, "attached": port.attached}, words[1], words[2])

    def attach(self, words, _):
        port = self.numbered(self.ports, words[0])
        need(words[1] in (0, 1), "IllegalArgument", "a display is attached by 1, and detached by 0")
        port.attached = words[1]

    def lset(self, words, _):
        pipe = self.numbered(self.pipes, words[0])
        name, value = words[1], words[2:]
        need(name in placed(), "BadAttribute", f"{name} is told, and not set by lset")
        if name == "transparency":
            need(0 <= value[0] <= 7, "IllegalArgument", "a transparency is from 0 to 7")
            need(not value[0] & MASK, "NotSupported", "a pipeline has no mask")
        pipe.cached[name] = self.value_of(name, value)

    def lget(self, words, _):
        pipe = self.numbered(self.pipes, words[0])
        told = {"pending": int(pipe.pending is not None), "showing": int(pipe.current is not None)}
        return self.component(pipe.cached | told, words[1], words[2])

    def lport(self, words, _):
        pipe = self.numbered(self.pipes, words[0])
        if words[1]:
            self.numbered(self.ports, words[1])
        pipe.cached["port"] = words[1]

    def wsource(self, words, is_denied):
        pipe = self.numbered(self.pipes, words[0])
        stream = self.find(words[1], "stream")
        need(stream.form != "a8", "NotSupported", "{} is a8, and a source shows rgba, pre or rgbx", stream)
        need(len(self.of_kind("source", "mask", "wsource")) < MOST_SOURCES, "Limit", ALL_SOURCES)
        return self.make(Thing("wsource", pipe=pipe, stream=stream), is_denied)

    def del_wsource(self, words, _):
        self.drop(self.find(words[0], "wsource"))

    def lsource(self, words, _):
        pipe = self.numbered(self.pipes, words[0])
        source = self.find(words[1], "wsource") if words[1] else None
        need(source is None or source.pipe is pipe, "IllegalArgument", "{} is of {}, and not of {}", source, source and source.pipe, pipe)
        pipe.request = (source, words[2])

    def commit_of(self, ports, pipes, is_allowed):
        """Takes what is cached of ports and pipelines, or refuses it."""
        for pipe in pipes:
            place = 16 * (self.pipes.index(pipe) + 1)
            stream = pipe.pending[0] if pipe.pending else pipe.current
            if pipe.request:
                source = pipe.request[0]
                is_live = source is None or self.live.get(source.handle) is source
                need(is_live, "Inconsistency", "{}: the source that it is asked to show is {}", pipe, source and source.handle, value=place + 1)
                stream = source.stream if source else None
            is_inside = stream is None or is_within(pipe.cached["srcrect"], stream)
            need(is_inside, "Inconsistency", f"{{}}: {not_within(pipe.cached, stream)}", pipe, stream, value=place + 2)
            sides = pipe.cached["dest"][2:]
            has_sides = stream is None or all(1 <= side <= MOST_SIDE for side in sides)
            need(has_sides, "Inconsistency", f"{{}}: {no_sides(sides)}", pipe, value=place + 3)
            way = f"it would go over from {port_named(pipe.committed['port'])} to {port_named(pipe.cached['port'])}"
            need(is_allowed(pipe), "Inconsistency", f"{{}}: {way}, and this commit does not take both", pipe, value=place + 4)
        for thing in ports + pipes:
            thing.committed = dict(thing.cached)
        for pipe in pipes:
            if pipe.request:
                source, transition = pipe.request
                stream = source.stream if source else None
                pipe.pending = (stream,) if transition == "vsync" else None
                pipe.current = pipe.current if transition == "vsync" else stream
                pipe.request = None

    def taken_by(self, verb, words):
        """Answers the pipelines that the commit `verb` of the display with `words` takes, by rising number."""
        if verb == "commit_port":
            return [pipe for pipe in self.pipes if words[0] in (pipe.cached["port"], pipe.committed["port"])]
        return [pipe for number, pipe in enumerate(self.pipes, 1) if verb == "commit_device" or number == words[0]]

    def commit_device(self, words, _):
        self.commit_of(self.ports, self.taken_by("commit_device", words), lambda pipe: True)

    def commit_port(self, words, _):
        port = self.numbered(self.ports, words[0])
        may = (0, words[0])
        self.commit_of([port], self.taken_by("commit_port", words),
                       lambda pipe: pipe.cached["port"] in may and pipe.committed["port"] in may)

    def commit_pipe(self, words, _):
        self.numbered(self.pipes, words[0])
        self.commit_of([], self.taken_by("commit_pipe", words), lambda pipe: pipe.cached["port"] == pipe.committed["port"])

    def derror(self, *_):
        told, self.register = self.register, 0
        return told

    # Frames. Each answers what it takes to paint one: the scene and the images by their streams.

    def latch(self, scene):
        """The images that a frame takes of a scene's streams."""
        streams = [stream for layer in scene.layers for stream in (layer.stream, layer.mask) if stream is not None]
        for stream in set(streams):
            stream.waiting, stream.read = taken(stream)
        return {id(stream): stream.read for stream in streams if stream.read is not None}

    def begin(self, context, value):
        """Begins a frame of a context, or refuses it with this value."""
        target, scene = context.target, context.committed
        need(target.out is None, "Busy", OUT, target, value=value)
        is_named = any(target in (layer.stream, layer.mask) for layer in scene.layers)
        is_full = is_blocked(target, *(taken(target) if is_named else (target.waiting, target.read)))
        need(not is_full, "NoBuffer", *no_buffer(target), value=value)
        target.out = "frame"
        return scene, self.latch(scene)

    def end(self, context, image):
        """Ends a frame of a context with the image that was painted."""
        context.target.out = None
        add(context.target, image)
        self.settle()

    def next_context(self, after):
        """The active context with the least handle above one, or None."""
        return next((each for each in self.of_kind("context") if each.active and each.handle > after), None)

    def context_for(self, words):
        """The context that a client composes, which is not active."""
        _, context = self.named(words, "context")
        need(not context.active, "Unsupported", "{} is active, so each tick composes it", context)
        return context

    def begin_port(self, number):
        """Begins a frame of a port, or answers None where it gives none."""
        port = self.ports[number - 1]
        if not port.attached or not port.committed["power"]:
            return None
        pipes = [pipe for pipe in self.pipes if pipe.committed["port"] == number]
        for pipe in pipes:
            if pipe.pending:
                pipe.current, pipe.pending = pipe.pending[0], None
        width, height = port.modes[port.committed["mode"] - 1]
        screen = placed() | {"srcrect": (0, 0, port.screen.w, port.screen.h), "dest": (0, 0, width, height)}
        layers = [layer_of(screen, port.screen)]
        layers += [layer_of(pipe.committed, pipe.current) for pipe in pipes if pipe.current is not None]
        scene = Thing("scene", w=width, h=height, turn=0, background=port.committed["background"] + (255,), layers=layers)
        images = self.latch(scene)
        self.settle()
        return scene, images
