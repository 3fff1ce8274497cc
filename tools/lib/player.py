"""Serial play by docs/profile.md and docs/formats.md, apart from the program: which events a script's lines make in file order, which
frames the ports show, and the film of both, piece by piece."""

import struct
from typing import NamedTuple

from lib.grammar import PAINTS, is_number
from lib.limits import MOST_CONTEXTS
from lib.model import CODES, FILTERS, FLAGS, Machine, Refusal, add
from lib.pictures import Canvas, picture
from lib.verbs import ATTRIBUTES, CREATIONS, VERBS

MAGIC = {1: b"WFF1", 2: b"WFF2"}
OUT_OF_MEMORY = CODES.index("OutOfMemory")


class Shown(NamedTuple):
    """A frame of a port: the port, the tick, the entry of its begin, its sides and its pixels."""

    port: int
    tick: int
    begin: int
    width: int
    height: int
    pixels: bytes


def declared(lines):
    """Answers the ports with their modes, and how many pipelines there are, of a script's `lines` as words."""
    ports = [[tuple(map(int, mode.split("x"))) for mode in words[1:]] for words in lines if words[:1] == ["port"]]
    return ports, sum(int(words[1]) for words in lines if words[:1] == ["pipes"])


class Names:
    """Keeps the handles that names stand for: those of the setup, which all clients see, and each client's own."""

    def __init__(self):
        self.of_setup = {}
        self.values = {client: {} for client in range(8)}

    def bind(self, client, name, handle, in_setup):
        """Lets a `name` of a `client` stand for a `handle`, for all clients where its line is `in_setup`."""
        (self.of_setup if in_setup else self.values[client])[name] = handle

    def read(self, client, verb, words):
        """Answers the `words` after a `verb` of a `client` as a call has them: numbers, handles by their names, and flags by their
        words."""
        form = (CREATIONS | VERBS)[verb]
        read = []
        kinds = list(form[:-1]) + [form[-1]] if form else []
        for place, word in enumerate(words):
            kind = kinds[place] if place < len(kinds) else "rest"
            name = words[len(kinds) - 1] if len(kinds) <= place else None
            if kind == "rest":
                of = kinds[-1].partition(" ")[2]
                kind = ATTRIBUTES[of][name] if kinds[-1].startswith("set") else "number"
            if kind == "handle":
                read.append(0 if word == "none" else self.values[client].get(word, self.of_setup.get(word, 0)))
            elif kind == "filter":
                read.append(FILTERS[word])
            elif kind == "transparency":
                read.append(sum(FLAGS[flag] for flag in word.split("+")))
            else:
                read.append(int(word) if is_number(word) else word)
        return read


# Pictures that were painted, by all that they show.
PAINTED = {}


def painted(scene, images):
    """Answers the picture of a `scene` with `images`, which is painted once where it comes again."""
    layers = tuple((tuple(sorted((key, value) for key, value in vars(layer).items() if key not in ("stream", "mask", "kind"))),
                    layer.stream.w, layer.stream.form, images.get(id(layer.stream)), images.get(id(layer.mask)))
                   for layer in scene.layers)
    key = (scene.w, scene.h, scene.turn, scene.background, layers)
    if key not in PAINTED:
        PAINTED[key] = picture(scene, images)
    return PAINTED[key]


class Show:
    """A serial play. `denied` are the places of the order at which a creation gets no memory."""

    def __init__(self, text, denied=()):
        lines = [line.partition("#")[0].split() for line in text.split("\n")]
        lines = [words for words in lines if words]
        self.machine = Machine(*declared(lines))
        self.denied = set(denied)
        self.turns = []
        self.frames = []
        self.ticks = 0
        self.held = {}
        self.names = Names()
        self.in_setup = True
        for words in lines:
            if words[0] in tuple("01234567"):
                self.line(int(words[0]), words[1:])

    def event(self, client, code, value):
        """One more event."""
        self.turns.append((client, code, value))
        return code == 0

    def call(self, client, verb, words):
        """Makes a call, whose answer is an event."""
        code, value = self.machine.call(verb, words, len(self.turns) in self.denied)
        return self.event(client, code, value)

    def line(self, client, words):
        """Plays a line of a client after its number."""
        self.in_setup = self.in_setup and client == 0
        name, words = (words[0], words[2:]) if words[1:2] == ["="] else (None, words)
        verb, words = words[0], words[1:]
        if verb == "tick":
            self.tick()
        elif verb in ("compose", "trycompose"):
            self.compose(client, self.names.read(client, verb, words))
        elif verb in ("acquire", "frame"):
            self.acquire(client, self.names.read(client, verb, words[:1]), words[1:], verb == "frame")
        elif verb == "paint":
            if client in self.held:
                self.held[client].paint(words)
        elif verb in ("post", "discard"):
            if client in self.held:
                self.give_back(client, verb == "post")
        else:
            came = self.call(client, verb, self.names.read(client, verb, words))
            if name is not None:
                self.names.bind(client, name, self.turns[-1][2] if came else 0, self.in_setup)

    def acquire(self, client, words, paint, is_frame):
        """Takes a canvas, unless the client holds one, and for a frame paints and posts it."""
        if client in self.held or not self.call(client, "acquire", words):
            return
        self.held[client] = Canvas(self.machine.live[words[0]])
        if is_frame:
            self.held[client].paint(paint)
            self.give_back(client, True)

    def give_back(self, client, is_shown):
        """Posts or discards the canvas that a client holds. That stream is kept, since its write buffer is out."""
        canvas = self.held.pop(client)
        canvas.stream.out = None
        if is_shown:
            add(canvas.stream, bytes(canvas.pixels))
        self.machine.settle()
        self.event(client, 0, 0)

    def compose(self, client, words):
        """Composes a frame of a context that a client names."""
        device = self.machine.live.get(words[0])
        try:
            context = self.machine.context_for(words)
            scene, images = self.machine.begin(context, 0)
        except Refusal as refusal:
            self.event(client, refusal.code, refusal.value)
            if device is not None and device.kind == "device" and device.register == 0:
                device.register = refusal.code
            return
        self.event(client, 0, context.handle)
        self.machine.end(context, painted(scene, images))
        self.event(client, 0, 0)

    def tick(self):
        """A tick: a frame of each active context, and then one of each port."""
        self.ticks += 1
        after = 0
        for _ in range(MOST_CONTEXTS):
            context = self.machine.next_context(after)
            after = context.handle if context else 0
            if context is None:
                self.event(0, 0, 0)
                break
            try:
                scene, images = self.machine.begin(context, after)
            except Refusal as refusal:
                self.event(0, refusal.code, refusal.value)
                continue
            self.event(0, 0, after)
            self.machine.end(context, painted(scene, images))
            self.event(0, 0, 0)
        for number in range(1, len(self.machine.ports) + 1):
            begun = self.machine.begin_port(number)
            if begun is None:
                self.event(0, 0, 0)
                continue
            scene, images = begun
            self.frames.append(Shown(number, self.ticks, len(self.turns), scene.w, scene.h, painted(scene, images)))
            self.event(0, 0, number)
            self.event(0, 0, 0)


class Piece(NamedTuple):
    """A piece of a film, which a sink is given at once, and how many turns are played where it is refused."""

    data: bytes
    turns: int


def pieces(show, form):
    """The pieces of a play's film. A frame that is not written whole is ended, and nothing is played after it."""
    found = [Piece(MAGIC[form], 0)]
    for frame in show.frames:
        where = struct.pack(">BI", frame.port, frame.tick) + (struct.pack(">I", frame.begin) if form == 2 else b"")
        found.append(Piece(b"F" + where + struct.pack(">HH", frame.width, frame.height), frame.begin + 2))
        found.append(Piece(frame.pixels, frame.begin + 2))
    whole = len(show.turns)
    found.append(Piece(b"J" + struct.pack(">I", whole), whole))
    found += [Piece(struct.pack(">BBI", *turn), whole) for turn in show.turns]
    return found + [Piece(b"E", whole)]


def film(show, form):
    """The film of a play."""
    return b"".join(piece.data for piece in pieces(show, form))


def denied_in(turns):
    """The places of an order whose code is OutOfMemory."""
    return [place for place, turn in enumerate(turns) if turn[1] == OUT_OF_MEMORY]


def canonical(text):
    """The canonical text of a script whose numbers have no leading zeros and whose paints have small letters."""
    lines = [" ".join(line.partition("#")[0].split()) for line in text.split("\n")]
    return "".join(line + "\n" for line in lines if line and line != "pipes 0")


def made(rounds):
    """The script of so many rounds that the program makes."""
    lines = ["WFS1", "port 64x48", "pipes 1", "0 d = device", "0 c = screen d 1", "0 activate d c"]
    for i in range(rounds):
        k, x, y = 1 + i % 7, 5 * i % 56, 3 * i % 40
        lines += [f"{k} s{i} = stream 8 8 rgbx 2", f"{k} x{i} = source d c s{i}", f"{k} e{i} = element d c", f"{k} set d e{i} source x{i}",
                  f"{k} set d e{i} srcrect 0 0 8 8", f"{k} set d e{i} dest {x} {y} 8 8", f"{k} insert d e{i} none",
                  f"{k} frame s{i} fill {i % 256} {7 * i % 256} {13 * i % 256} 255", f"{k} commit d c", "0 tick",
                  f"{k} del_element d e{i}", f"{k} del_source d x{i}", f"{k} del_stream s{i}"]
    return "\n".join(lines + ["end", ""])


def summary(rounds, denied=()):
    """The line on the film of that script in which the creations at these places of the order get no memory."""
    show = Show(made(rounds), denied)
    data = film(show, 2)
    return (f"big {rounds}: lines {7 + 13 * rounds} events {len(show.turns)} frames {rounds} bytes {len(data)}"
            f" sum {sum(data) % 2**32}\n")
