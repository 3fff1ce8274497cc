"""Sessions at random, with every message: small scenes that are built up, shown, changed and torn down, with wrong handles and numbers
among them. Each number of a session makes the same one again."""

import io

from lib.limits import MOST_DEVICES, MOST_STREAMS
from lib.session import Session
from lib.wire import ARGUMENT, NAMED, PAINTS, RANGES, TABLE, WORDS, Header, Reader, arguments_of, header, kinds_of, message, messages

SIDES = (1, 2, 3, 3, 4, 4, 5)
CHANNELS = (0, 1, 100, 128, 200, 254, 255)
# What is done next, each with how often: the methods of these names.
DEEDS = {
    "layer": 4, "plane": 3, "target": 1, "mask": 1, "draw": 10, "dress": 10, "order": 4, "turn": 3, "commit": 4, "compose": 5, "show": 6,
    "refresh": 16, "switch": 2, "meet": 1, "crowd": 0.1, "set_port": 2, "set_pipe": 4, "bind": 4, "commit_display": 5, "attach": 1,
    "ask": 6, "errors": 3, "end": 2, "stray": 2,
}
# One number in so many is any.
ASTRAY = 30
# Numbers at which something changes, beside the ends of each range.
EDGES = (-1, 0, 1, 2**31, 2**32 - 1, 2**32, 2**63 - 1, -(2**63))
# What is destroyed, with its message and the kind of the model's objects.
ENDS = (("StreamDestroy", "stream"), ("SourceDestroy", "source"), ("MaskDestroy", "mask"), ("ElementDestroy", "element"),
        ("DisplaySourceDestroy", "wsource"), ("ContextDestroy", "context"), ("DeviceDestroy", "device"))
# The values of attributes that have one number.
KNOWN = {"flip": (0, 1, 1, 2), "rotation": (0, 90, 180, 270, 45), "filter": (0, 1, 2, 3),
         "transparency": (0, 1, 2, 3, 1, 2, 3, 4, 5, 6, 8), "alpha": (0, 128, 200, 255, 256), "mode": (1, 1, 2),
         "power": (0, 1, 1, 1)}


class Writer:
    """A session that is written message by message, by a source of random numbers, and served at once."""

    def __init__(self, chance):
        self.chance = chance
        self.ports = [(self.side(), self.side()) for _ in range(chance.choice((1, 1, 1, 2, 2, 3, 4)))]
        self.pipes = chance.choice((0, 1, 2, 3, 8))
        self.session = Session(Header(self.ports, self.pipes))
        self.machine = self.session.machine
        self.data = header(self.ports, self.pipes)

    def say(self, name, *values):
        """Writes a message. Returns the value of its answer."""
        own = message(name, *values)
        self.data += own
        answer = self.session.answer(Reader(io.BytesIO(own)).message())[0]
        return int.from_bytes(answer[1:5], "big")

    def is_astray(self):
        """Returns whether something is any."""
        return self.chance.randrange(ASTRAY) == 0

    def side(self):
        """Returns a small side."""
        return self.chance.choice(SIDES)

    def color(self):
        """Returns the four numbers of a colour."""
        return [self.chance.choice(CHANNELS) for _ in range(4)]

    def thing(self, *kinds):
        """Returns a live object of these kinds, mostly a late one, or None."""
        things = self.machine.of_kind(*kinds)
        return things[-1 - min(int(self.chance.expovariate(0.9)), len(things) - 1)] if things else None

    def handle(self, thing):
        """Returns the handle of an object, or any where there is none."""
        return self.chance.randint(0, self.machine.made + 1) if thing is None or self.is_astray() else thing.handle

    def pair(self, kind):
        """Returns the handles of an object and of its device, and the object."""
        thing = self.thing(kind)
        return self.handle(thing.device if thing else self.thing("device")), self.handle(thing), thing

    def number(self, count):
        """Returns a number from 1 to a count, or one beside them now and then."""
        return self.chance.choice((0, count + 1, -1, 2**32 + 1)) if self.is_astray() else self.chance.randint(1, max(1, count))

    # What is made.

    def stream(self, *formats):
        """Makes a stream of one of these formats. Returns its handle and its sides."""
        sides = [self.side(), self.side()]
        if self.is_astray():
            sides[0] = self.chance.choice((0, -1, 1025, 2**32 + 1))
        name, counts = self.chance.choice((("StreamNew", (2, 2, 3, 4)), ("StreamQueue", (1, 2, 3, 8))))
        count = self.chance.choice((0, 1, 5, 9)) if self.is_astray() else self.chance.choice(counts)
        return self.say(name, *sides, self.chance.choice(formats), count), sides

    def layer(self):
        """Makes a stream, a source and an element that shows it, and draws."""
        device, context, _ = self.pair("context")
        stream, sides = self.stream("rgba", "pre", "rgbx")
        source = self.say("SourceNew", device, context, stream)
        element = self.say("ElementNew", device, context)
        self.say("ElementSet", device, element, "source", source)
        self.say("ElementSet", device, element, "srcrect", [0, 0, *sides])
        self.say("ElementSet", device, element, "dest", self.place())
        for name, value in self.looks():
            self.say("ElementSet", device, element, name, value)
        self.say("ElementInsert", device, element, 0)
        self.draw_into(stream)

    def looks(self):
        """Returns some attributes of what is shown, each with a value."""
        chance = self.chance
        every = [("transparency", chance.randint(1, 3)), ("alpha", chance.choice((0, 60, 128, 200))), ("flip", 1),
                 ("rotation", chance.choice((90, 180, 270)))]
        return [(name, value) for name, value in every if chance.random() < 0.4]

    def draw_into(self, stream):
        """Draws an image of a stream."""
        self.say("Acquire", stream)
        self.paint()
        self.say("Post")

    def place(self):
        """Returns a rectangle near the corner."""
        return [self.chance.randint(-2, 3), self.chance.randint(-2, 3), self.side(), self.side()]

    def plane(self):
        """Makes a stream and a source of a pipeline, which shows it."""
        pipe = self.number(self.pipes)
        stream, sides = self.stream("rgba", "pre", "rgbx")
        self.draw_into(stream)
        source = self.say("DisplaySource", pipe, stream)
        self.say("PipeSet", pipe, "srcrect", [0, 0, *sides])
        self.say("PipeSet", pipe, "dest", self.place())
        for name, value in self.looks():
            self.say("PipeSet", pipe, name, value)
        self.say("PipeBindPort", pipe, self.number(len(self.ports)))
        self.say("PipeBindSource", pipe, source, self.chance.choice(WORDS["transition"]))
        self.say("CommitDevice")

    def target(self):
        """Makes a context, of a screen or of a stream."""
        device = self.handle(self.thing("device"))
        if self.chance.random() < 0.6:
            self.say("ScreenContext", device, self.number(len(self.ports)))
        else:
            self.say("StreamContext", device, self.stream("pre", "rgbx", "rgba")[0])

    def mask(self):
        """Makes a mask, draws it, and sets it to an element that is as large."""
        device, element, thing = self.pair("element")
        stream, sides = self.stream("a8")
        mask = self.say("MaskNew", device, self.handle(thing and thing.context), stream)
        self.draw_into(stream)
        self.say("ElementSet", device, element, "mask", mask)
        self.say("ElementSet", device, element, "dest", [*self.place()[:2], *sides])
        self.say("ElementSet", device, element, "transparency", self.chance.choice((4, 5)))

    # What is drawn and changed.

    def paint(self):
        """Paints."""
        name = self.chance.choice(sorted(PAINTS))
        first = {"Rectangle": [self.chance.randint(-2, 4), self.chance.randint(-2, 4), self.side(), self.side()],
                 "Checker": [self.side()]}.get(name, [])
        self.say(name, *first, *self.color(), *(self.color() if name in ("Checker", "Ramp") else []))

    def draw(self):
        """Draws an image, of which a part may be left out."""
        draw = self.chance.random()
        if draw < 0.9:
            self.say("Acquire", self.handle(self.thing("stream")))
        for _ in range(self.chance.randint(0, 2)):
            self.paint()
        if draw > 0.1:
            self.say("Post" if draw > 0.2 else "Discard")

    def value(self, thing, name):
        """Returns what an attribute is set to."""
        if self.is_astray():
            return [self.chance.choice(EDGES) for _ in range(4)]
        if name in ("source", "mask"):
            return [self.handle(self.thing(name))]
        if name == "srcrect":
            x, y = self.chance.choice((0, 0, 0, 1)), self.chance.choice((0, 0, 0, 1))
            return [x, y, *(self.side() for _ in range(2))] if thing is None else [x, y, thing.w - x, thing.h - y]
        if name == "dest":
            return self.place()
        return self.color() if name == "background" else [self.chance.choice(KNOWN.get(name, (0, 1)))]

    def dress(self):
        """Sets an attribute of an element."""
        device, element, thing = self.pair("element")
        source = self.machine.live.get(thing.has["source"]) if thing else None
        name = self.chance.choice(WORDS["element"])
        self.say("ElementSet", device, element, name, self.value(source and source.stream, name))

    def order(self):
        """Moves an element in its context's order."""
        device, element, _ = self.pair("element")
        if self.chance.random() < 0.7:
            self.say("ElementInsert", device, element, self.chance.choice((0, self.handle(self.thing("element")))))
        else:
            self.say("ElementRemove", device, element)

    def turn(self):
        """Sets an attribute of a context."""
        device, context, _ = self.pair("context")
        name = self.chance.choice(("rotation", "rotation", "background", *WORDS["context"]))
        self.say("ContextSet", device, context, name, self.value(None, name))

    def commit(self):
        """Commits a context."""
        self.say("Commit", *self.pair("context")[:2])

    def compose(self):
        """Composes a frame of a context."""
        self.say("BeginContext", *self.pair("context")[:2])

    def refresh(self):
        """Commits a context, without an element that is wrong, composes a frame of it, and shows the port that has it."""
        device, context, thing = self.pair("context")
        place = self.say("Commit", device, context) // 16
        if thing and 0 < place <= len(thing.order):
            self.say("ElementRemove", device, thing.order[place - 1].handle)
            self.say("Commit", device, context)
        self.say("BeginContext", device, context)
        self.say("BeginPort", thing.port if thing and thing.port else self.number(len(self.ports)))

    def meet(self):
        """Makes a context of a stream, which another may not have, and composes a frame of it while its write buffer is out, and then."""
        device, stream = self.handle(self.thing("device")), self.stream("pre", "rgbx")[0]
        context = self.say("StreamContext", device, stream)
        self.say("StreamContext", device, stream)
        self.say("Acquire", stream)
        self.say("BeginContext", device, context)
        self.say("Discard")
        self.say("BeginContext", device, context)

    def crowd(self):
        """Makes more of something than there may be."""
        name, most = self.chance.choice((("DeviceNew", MOST_DEVICES), ("StreamNew", MOST_STREAMS)))
        for _ in range(most + 1):
            self.say(name, *([1, 1, "a8", 2] if name == "StreamNew" else []))

    def switch(self):
        """Makes a context active for a while."""
        own = self.pair("context")[:2]
        self.say("Activate", *own)
        if self.chance.random() < 0.5:
            self.say("BeginContext", *own)
        self.say("Deactivate", *own)

    # The display.

    def show(self):
        """Shows a port."""
        self.say("BeginPort", self.number(len(self.ports)))

    def set_port(self):
        """Sets an attribute of a port."""
        name = self.chance.choice(("background", *WORDS["port"]))
        self.say("PortSet", self.number(len(self.ports)), name, self.value(None, name))

    def set_pipe(self):
        """Sets an attribute of a pipeline."""
        pipe, name = self.number(self.pipes), self.chance.choice(WORDS["pipe"])
        shown = self.machine.pipes[pipe - 1].current if 1 <= pipe <= self.pipes else None
        self.say("PipeSet", pipe, name, self.value(shown, name))

    def bind(self):
        """Asks for another source or another port of a pipeline."""
        source = self.thing("wsource")
        pipe = self.machine.pipes.index(source.pipe) + 1 if source else self.number(self.pipes)
        if self.chance.random() < 0.3:
            self.say("PipeBindPort", pipe, self.chance.choice((0, self.number(len(self.ports)))))
        else:
            self.say("PipeBindSource", pipe, self.chance.choice((0, self.handle(source))), self.chance.choice(WORDS["transition"]))

    def commit_display(self):
        """Commits the display or a part of it."""
        name = self.chance.choice(("CommitDevice", "CommitPort", "CommitPipe"))
        counts = {"CommitPort": len(self.ports), "CommitPipe": self.pipes}
        self.say(name, *([self.number(counts[name])] if name in counts else []))

    def attach(self):
        """Takes a display away, or attaches it again."""
        self.say("Attach", self.number(len(self.ports)), self.chance.choice((0, 1, 1, 2)))

    # What is asked, ended and strays.

    def ask(self):
        """Asks for a number of an attribute, a neighbour or a count."""
        name = self.chance.choice(("ElementGet", "ContextGet", "PortGet", "PipeGet", "ElementAbove", "ElementBelow", "Stat"))
        if name == "Stat":
            self.say(name, self.chance.choice(WORDS["stat"]))
        elif name in ("PortGet", "PipeGet"):
            count = len(self.ports) if name == "PortGet" else self.pipes
            self.say(name, self.number(count), self.chance.choice(WORDS[name[:4].lower()]), self.chance.randint(-1, 4))
        else:
            kind = "context" if name == "ContextGet" else "element"
            more = [self.chance.choice(WORDS[kind]), self.chance.randint(-1, 4)] if name.endswith("Get") else []
            self.say(name, *self.pair(kind)[:2], *more)

    def errors(self):
        """Asks for an error."""
        if self.chance.random() < 0.5:
            self.say("DisplayError")
        else:
            self.say("GetError", self.handle(self.thing("device")))

    def end(self):
        """Destroys something, a context or a device seldom."""
        name, kind = self.chance.choice(ENDS if self.chance.random() < 0.3 else ENDS[:5])
        if arguments_of(NAMED[name])[0][0] == "device" and kind != "device":
            self.say(name, *self.pair(kind)[:2])
        else:
            self.say(name, self.handle(self.thing(kind)))

    def stray(self):
        """Writes any message, whose numbers are in their ranges and mean nothing else."""
        name = self.chance.choice(TABLE.messages).name
        self.say(name, *(self.stray_value(kind) for _, kind in arguments_of(NAMED[name])))

    def stray_value(self, kind):
        """Returns an argument of a kind."""
        if kind == "values":
            return [self.chance.choice((*EDGES, 2, 5, 255)) for _ in range(4)]
        least, most = RANGES[kind]
        return max(least, min(most, self.chance.choice((*EDGES, 2, 3, 4, 5, 6, self.chance.randint(0, 9)))))


def write(writer, deeds):
    """Writes a session of so many deeds."""
    chance = writer.chance
    device = writer.say("DeviceNew")
    writer.say("ScreenContext", device, 1)
    if chance.random() < 0.5:
        writer.say("ContextSet", device, device + 1, "background", writer.color())
    for _ in range(chance.randint(0, 3)):
        writer.layer()
    writer.say("Commit", device, device + 1)
    for deed in chance.choices(list(DEEDS), DEEDS.values(), k=deeds):
        getattr(writer, deed)()
    for number in range(1, len(writer.ports) + 1):
        writer.say("BeginPort", number)


def session(chance, deeds):
    """Returns the bytes of a session of so many deeds."""
    writer = Writer(chance)
    write(writer, deeds)
    return writer.data


def mangled(chance, data):
    """Returns the bytes of a session with a byte changed, cut off, or with a number that its kind may not have or its call refuses."""
    draw, place = chance.random(), chance.randrange(len(data))
    if draw < 0.4:
        return data[:place] + bytes([chance.randrange(256)]) + data[place + 1 :]
    if draw < 0.7:
        return data[:place]
    own = chance.choice([each for each in messages(data).messages if each.numbers])
    number = chance.randrange(len(own.numbers))
    least, most = RANGES[kinds_of(NAMED[own.name])[number]]
    value = max(-(2**63), min(2**63 - 1, chance.choice((*EDGES, least, most, least - 1, most + 1))))
    at = own.at + 1 + ARGUMENT * number
    return data[:at] + value.to_bytes(ARGUMENT, "big", signed=True) + data[at + ARGUMENT :]
