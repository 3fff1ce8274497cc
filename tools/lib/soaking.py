"""Calls of the machine at random, each with the answer and with the numbers of names that lib/names.py works out, as a file of cases that
the program cases_machine plays. They reach all that names a stream: handles, write buffers, sources, masks, layers, targets, pipelines, frames."""

from typing import NamedTuple

from lib.limits import MOST_SIDE
from lib.model import ALPHA, CODES, MASK, SOURCE, bytes_of
from lib.names import Counted, job_of

FORMATS = ("rgba", "pre", "rgbx", "a8")


class Kind(NamedTuple):
    """A kind of runs: how often it comes, how many streams are kept about, their sides, and how often some deeds are done."""

    often: int
    aims: tuple
    sides: tuple
    deeds: dict


NAMED = {"make_stream": 2, "end_stream": 1, "make_window": 24, "make_plane": 12, "end_source": 1, "end_element": 1, "end_device": 0}
KINDS = (Kind(30, (1, 3, 6), (1, 2, 3), {}), Kind(25, (8, 20, 40), (1, 2, 3), {}), Kind(25, (40, 62, 70), (1, 2), {}),
         Kind(12, (2, 4, 12), (1, 2), NAMED), Kind(8, (10, 40, 70), (1, 900, MOST_SIDE), {"make_stream": 12}))
# Runs whose streams are large, and soon dropped, which come where they are asked for.
LARGE = Kind(0, (4, 8, 16), (500, 1024), {"make_stream": 60, "end_stream": 40, "end_source": 20, "end_context": 20})
# After so many deeds a run has another number of streams about.
SPELL = 150
# What is done next, each with how often: the functions of these names.
DEEDS = {
    "make_stream": 8, "end_stream": 3, "take": 12, "give": 12, "make_device": 2, "end_device": 1, "make_context": 5, "end_context": 2,
    "make_window": 10, "end_source": 5, "end_element": 4, "dress": 8, "order": 6, "commit": 20, "switch": 4, "make_plane": 5,
    "end_plane": 2, "bind": 10, "place": 5, "commit_display": 10, "begin": 16, "end": 14, "ask": 6, "deny": 2, "stray": 4,
}
# Those that are done more often while there are as many streams as there should be.
ENDS = ("end_stream", "end_source", "end_element", "end_plane")
# One call in so many names an object at random, which may be dead, of another kind or none.
ASTRAY = 25
# What a line is: an event, a change by hand of what the client holds, or a look at what an event left.
EVENT, HAND, LOOK = "event", "hand", "look"


class Soaking:
    """A run of calls, which is written line by line, by a source of random numbers. It is of a kind, or of one at random."""

    def __init__(self, chance, kind=None):
        self.chance = chance
        self.kind = kind or chance.choices(KINDS, [kind.often for kind in KINDS])[0]
        self.aim = 0
        width, height, ports = chance.randint(1, 3), chance.randint(1, 3), chance.choice((1, 2, 4))
        self.machine = Counted([[(width, height)]] * ports, 2)
        self.canvas = None
        self.deeds = self.events = self.refusals = self.greatest = 0
        # The bytes of all streams that were made.
        self.bytes = 0
        self.lines = []
        # Which calls were answered with which codes.
        self.reached = set()
        self.line(f"ports {width} {height} {ports} = done", HAND)
        self.look(())

    def play(self, count):
        """Plays so many events or a few more."""
        while self.events < count:
            if self.deeds % SPELL == 0:
                self.aim = self.chance.choice(self.kind.aims)
            self.deeds += 1
            getattr(self, self.chance.choices(list(DEEDS), self.weights())[0])()

    def weights(self):
        """How often each deed is done now."""
        weights = DEEDS | self.kind.deeds
        if len(self.machine.streams) < self.aim:
            weights["make_stream"] *= 3
        else:
            weights.update({deed: 3 * weights[deed] for deed in ENDS})
        if self.machine.frame:
            weights["begin"] = 3
        else:
            weights["end"] = 0
        return weights.values()

    # Lines.

    def line(self, text, kind):
        """One more line."""
        self.lines.append((text, kind))

    def by_hand(self, *words):
        """A line that changes what the client holds, and is no event."""
        self.line(" ".join(map(str, words)) + " = done", HAND)

    def look(self, before):
        """What the last event left: the number of names of each stream that was or is kept and of the next one, and what is held."""
        machine = self.machine
        numbers = sorted({*before, *machine.counts, machine.streams_made + 1})
        counts = " ".join(str(machine.counts[number]) for number in numbers)
        self.line(f"count {' '.join(map(str, numbers))} = {counts}", LOOK)
        self.line(f"held = {len(machine.streams)} {sum(map(bytes_of, machine.streams))}", LOOK)
        self.greatest = max(self.greatest, *machine.counts.values())

    def call(self, verb, *words, given=None, is_denied=False):
        """Makes a call, and answers its value, or None where it is refused. What is given back stands in no line."""
        before = list(self.machine.counts)
        code, value = self.machine.call(verb, list(words if given is None else given), is_denied)
        self.events += 1
        self.refusals += code != 0
        self.reached.add((verb, CODES[code]))
        self.line(" ".join(["denied"] * is_denied + [verb, *map(str, words)]) + f" = {CODES[code]} {value}", EVENT)
        self.look(before)
        return value if code == 0 else None

    # What is chosen.

    def is_astray(self):
        """Whether a call names something at random."""
        return self.chance.randrange(ASTRAY) == 0

    def any_handle(self):
        """A handle that was given, or the next one, or 0."""
        return self.chance.randint(0, self.machine.made + 1)

    def thing(self, *kinds):
        """A live object of some kinds, or None."""
        things = self.machine.of_kind(*kinds)
        return self.chance.choice(things) if things else None

    def handle_of(self, thing):
        """The handle of an object, or another one now and then, or where there is none."""
        return self.any_handle() if thing is None or self.is_astray() else thing.handle

    def of_device(self, thing):
        """The handles of an object and of its device."""
        device = self.thing("device") if thing is None or self.is_astray() else thing.device
        return self.handle_of(device), self.handle_of(thing)

    def number_of(self, things):
        """The number of a port or of a pipeline, or of none now and then."""
        return self.chance.randint(0, len(things) + 1) if self.is_astray() else self.chance.randint(1, len(things))

    def pixels(self):
        """A live stream of pixels, or None."""
        streams = [stream for stream in self.machine.of_kind("stream") if stream.form != "a8"]
        return self.chance.choice(streams) if streams else None

    def part(self, stream):
        """A rectangle inside of a stream, or not inside now and then."""
        width, height = (stream.w, stream.h) if stream else (1, 1)
        if self.is_astray():
            return self.chance.randint(-2, 2), 0, self.chance.randint(0, 5), height
        x, y = self.chance.randrange(width), self.chance.randrange(height)
        return x, y, width - x, height - y

    # Streams.

    def make_stream(self):
        width, height = self.chance.choice(self.kind.sides), self.chance.choice(self.kind.sides)
        form, buffers = self.chance.choice(FORMATS), self.chance.choice((2, 2, 3, 4))
        if self.is_astray():
            width, buffers = self.chance.choice(((0, 2), (MOST_SIDE + 1, 2), (1, 1), (1, 5)))
        word = self.chance.choice(("stream", "stream", "queue"))
        if self.call(word, width, height, form, buffers) is not None:
            self.bytes += bytes_of(self.machine.streams[-1])

    def end_stream(self):
        self.call("del_stream", self.handle_of(self.thing("stream")))

    def take(self):
        handle = self.handle_of(self.thing("stream"))
        if self.call("acquire", handle) is not None:
            stream = self.machine.live[handle]
            self.canvas = (stream.number, stream.form, stream.w, stream.h)

    def give(self):
        """Gives back the canvas that is held, or one that is made by hand, of any stream whose write buffer is out or of none."""
        out = [stream for stream in self.machine.streams if stream.out] or self.machine.streams
        if self.canvas is None or self.chance.random() < 0.7:
            stream = self.chance.choice(out)
            self.canvas = (stream.number, stream.form, stream.w, stream.h)
            if self.is_astray():
                self.canvas = (self.chance.randint(1, self.machine.streams_made + 1), self.chance.choice(FORMATS), 1, 2)
            self.by_hand("forge", *self.canvas)
        if self.call(self.chance.choice(("post", "post", "discard")), given=self.canvas) is not None:
            self.canvas = None

    # Devices, contexts, elements, sources and masks.

    def make_device(self):
        self.call("device")

    def end_device(self):
        if self.chance.random() < 0.3:
            self.call("del_device", self.handle_of(self.thing("device")))

    def make_context(self):
        device = self.handle_of(self.thing("device"))
        if self.chance.random() < 0.4:
            self.call("screen", device, self.number_of(self.machine.ports))
        else:
            self.call("offscreen", device, self.handle_of(self.pixels()))

    def end_context(self):
        if self.chance.random() < 0.5:
            self.call("del_context", *self.of_device(self.thing("context")))

    def make_window(self):
        """An element with its source, and with a mask now and then, which is inserted."""
        context, stream = self.thing("context"), self.pixels()
        device, handle = self.of_device(context)
        source = self.call("source", device, handle, self.handle_of(stream))
        element = self.call("element", device, handle)
        if source is None or element is None:
            return
        self.call("set", device, element, "source", source)
        self.call("set", device, element, "srcrect", *self.part(stream))
        self.call("set", device, element, "dest", self.chance.randint(-2, 2), 0, *self.shape(device, handle, element))
        below = self.chance.choice(context.order) if context and context.order and self.chance.random() < 0.5 else None
        self.call("insert", device, element, self.handle_of(below) if below else 0)

    def shape(self, device, context, element):
        """The sides of an element's destination: those of its mask, where it gets one."""
        masks = [stream for stream in self.machine.of_kind("stream") if stream.form == "a8"]
        stream = self.chance.choice(masks) if masks and self.chance.random() < 0.5 else None
        if stream is None:
            self.call("set", device, element, "transparency", self.chance.choice((0, ALPHA, SOURCE, ALPHA + SOURCE)))
            return self.chance.randint(1, 3), self.chance.randint(1, 3)
        mask = self.call("mask", device, context, self.handle_of(stream))
        self.call("set", device, element, "mask", mask or 0)
        self.call("set", device, element, "transparency", self.chance.choice((MASK, MASK, MASK + ALPHA, ALPHA)))
        return stream.w, stream.h

    def end_source(self):
        thing = self.thing("source", "mask")
        self.call("del_mask" if thing and thing.kind == "mask" else "del_source", *self.of_device(thing))

    def end_element(self):
        self.call("del_element", *self.of_device(self.thing("element")))

    def dress(self):
        """Gives an element another source, or one that is none of its context's, or none."""
        element = self.thing("element")
        sources = [each for each in self.machine.of_kind("source") if element and each.context is element.context]
        source = self.chance.choice(sources) if sources else None
        device, handle = self.of_device(element)
        if self.call("set", device, handle, "source", self.handle_of(source)) is not None and source:
            self.call("set", device, handle, "srcrect", *self.part(source.stream))

    def order(self):
        element = self.thing("element")
        verb = self.chance.choice(("insert", "insert", "remove", "above", "below"))
        others = element.context.order if element else []
        below = [self.handle_of(self.chance.choice(others)) if others and self.chance.random() < 0.6 else 0]
        self.call(verb, *self.of_device(element), *(below if verb == "insert" else []))

    def commit(self):
        """Commits a scene, from which most often is taken what would refuse it."""
        context = self.thing("context")
        if context and self.chance.random() < 0.8:
            wrong = [element for element in context.order if self.machine.live.get(element.has["source"]) is None
                     or element.has["transparency"] & MASK and self.machine.live.get(element.has["mask"]) is None]
            for element in wrong:
                self.call(self.chance.choice(("remove", "del_element")), *self.of_device(element))
        self.call("commit", *self.of_device(context))

    def switch(self):
        self.call(self.chance.choice(("activate", "activate", "deactivate")), *self.of_device(self.thing("context")))

    # The display.

    def make_plane(self):
        self.call("wsource", self.number_of(self.machine.pipes), self.handle_of(self.pixels()))

    def end_plane(self):
        self.call("del_wsource", self.handle_of(self.thing("wsource")))

    def bind(self):
        """Asks that a pipeline shows a source, of which it most often is one, or nothing."""
        source = self.thing("wsource")
        pipe = self.machine.pipes.index(source.pipe) + 1 if source and not self.is_astray() else self.number_of(self.machine.pipes)
        handle = self.handle_of(source) if self.chance.random() < 0.9 else 0
        if source and self.chance.random() < 0.8:
            self.call("lset", pipe, "srcrect", *self.part(source.stream))
        self.call("lsource", pipe, handle, self.chance.choice(("now", "vsync")))
        if self.chance.random() < 0.5:
            self.call("commit_pipe", pipe)

    def place(self):
        """Changes how a pipeline or a port is shown, or whether it is."""
        pipe, port = self.number_of(self.machine.pipes), self.number_of(self.machine.ports)
        what = self.chance.randrange(5)
        if what == 0:
            self.call("lport", pipe, port if self.chance.random() < 0.8 else 0)
        elif what == 1:
            self.call("lset", pipe, "dest", 0, 0, self.chance.randint(1, 3), 2000 if self.is_astray() else 1)
        elif what == 2:
            self.call("lset", pipe, "transparency", self.chance.choice((0, ALPHA, SOURCE, MASK, 9)))
        elif what == 3:
            self.call("attach", port, self.chance.choice((1, 1, 0)))
        else:
            self.call("pset", port, "power", self.chance.choice((1, 1, 0)))

    def commit_display(self):
        verb = self.chance.choice(("commit_device", "commit_port", "commit_pipe"))
        of = {"commit_device": [], "commit_port": self.machine.ports, "commit_pipe": self.machine.pipes}[verb]
        self.call(verb, *([self.number_of(of)] if of else []))

    # Frames.

    def begin(self):
        what = self.chance.randrange(3)
        if what == 0:
            self.call("begin_next", self.chance.choice((0, 0, self.handle_of(self.thing("context")))))
        elif what == 1:
            self.call("begin_port", self.number_of(self.machine.ports))
        else:
            idle = [context for context in self.machine.of_kind("context") if not context.active]
            self.call("begin_context", *self.of_device(self.chance.choice(idle) if idle else self.thing("context")))

    def end(self):
        """Ends the running frame, most often by its own Job."""
        frame = self.machine.frame
        number, *kind = job_of(frame)
        if self.is_astray():
            self.by_hand("number", number + 1)
            self.call("end", given=(number + 1, *kind))
            self.by_hand("number", number)
            self.by_hand("context", 1, 9999)
            self.call("end", given=(number, 1, 9999))
            self.by_hand("context" if frame.context else "port", *kind)
        self.call("end", given=(number, *kind))

    # The rest.

    def ask(self):
        """A call that changes no name."""
        what = self.chance.randrange(5)
        if what == 0:
            self.call("stat", self.chance.choice(("streams", "bytes")))
        elif what == 1:
            self.call("error", self.handle_of(self.thing("device")))
        elif what == 2:
            self.call("derror")
        elif what == 3:
            self.call("cset", *self.of_device(self.thing("context")), *self.chance.choice((("rotation", 90), ("width", 1))))
        else:
            pipe = self.number_of(self.machine.pipes)
            self.call("lget", pipe, self.chance.choice(("pending", "showing", "port")), 0)

    def deny(self):
        """A creation to which memory is refused."""
        device, context = self.of_device(self.thing("context"))
        stream = self.handle_of(self.pixels())
        verb, *words = self.chance.choice((
            ("stream", 1, 1, "rgba", 2), ("device",), ("screen", device, 1), ("offscreen", device, stream), ("element", device, context),
            ("source", device, context, stream), ("mask", device, context, stream), ("wsource", 1, stream)))
        self.call(verb, *words, is_denied=True)

    def stray(self):
        """A call that names objects at random, most of which are dead or of another kind."""
        verb = self.chance.choice(("del_stream", "del_source", "del_mask", "del_element", "del_wsource", "commit", "source", "mask", "insert",
                                   "offscreen", "begin_context", "activate"))
        count = {"del_stream": 1, "del_wsource": 1, "source": 3, "mask": 3, "insert": 3}.get(verb, 2)
        self.call(verb, *(self.any_handle() for _ in range(count)))


def cases(soaking):
    """A run as a file of cases."""
    return "".join(f"{text}\n" for text, _ in soaking.lines)


def beginning(soaking, place):
    """The lines up to one of these, by its place from 0, without the looks before it, and the number of the event that it is of, from 0."""
    kept = [text for text, kind in soaking.lines[:place] if kind != LOOK] + [soaking.lines[place][0]]
    return "".join(f"{text}\n" for text in kept), max(0, sum(kind == EVENT for _, kind in soaking.lines[: place + 1]) - 1)
