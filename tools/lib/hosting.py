"""Calls at random through the library for C, each with the model's answer beside it: those of lib/sessions.py, frames of the clock, and
calls with wild numbers, arguments, sizes and handles."""

import io
import struct

from lib.names import job_of
from lib.player import painted
from lib.session import NO_CALL
from lib.sessions import EDGES, Writer
from lib.wire import MESSAGES, NAMED, PAINTS, Broken, Reader, message

CLIENT = 0
ARGUMENT = ">q"
PIXEL = 4


class Differs(Exception):
    """The library answers otherwise than the model."""


def as_signed(bits):
    """Returns 64 bits as a number in two's complement."""
    return bits - 2**64 if bits >= 2**63 else bits


def may_be(number, bits):
    """Returns the message of a number with arguments of these bits, or None where none is such."""
    if number not in MESSAGES:
        return None
    data = bytes([number]) + b"".join(struct.pack(ARGUMENT, as_signed(own)) for own in bits)
    reader = Reader(io.BytesIO(data))
    try:
        found = reader.message()
    except Broken:
        return None
    return found if reader.at == len(data) else None


class Both(Writer):
    """A machine of the model and one of the library, which are asked for the same."""

    def __init__(self, chance, binding):
        super().__init__(chance)
        self.binding = binding
        self.library = binding.Machine([[sides] for sides in self.ports], self.pipes, raises=False)
        self.frame = binding.Frame()
        self.held = None
        self.calls = 0

    def close(self):
        """Closes what is open, and asks it once more."""
        self.library.close()
        self.frame.close()
        self.same("a closed machine", self.library.device_new(CLIENT), (NO_CALL, 0))
        self.same("a closed frame", self.frame.read(), None)

    def same(self, what, came, wanted):
        """Counts a call, whose answer has to be the wanted one."""
        self.calls += 1
        if came != wanted:
            raise Differs(f"{what}: the library answers {came!r:.200}, and the model {wanted!r:.200}")

    def say(self, name, *values):
        own = Reader(io.BytesIO(message(name, *values))).message()
        return self.told(own)

    def told(self, own):
        """Asks both for a message. Returns the value of the answer."""
        held = self.session.canvas
        answer = self.session.answer(own)[0]
        told = answer[0], int.from_bytes(answer[1:5], "big")
        if own.name in ("Post", "Discard"):
            self.give_back(own.name, held, told)
        elif own.name in ("BeginContext", "BeginPort"):
            self.frame_of(own, told)
        elif own.name not in PAINTS and not (own.name == "Acquire" and held):
            self.same(own.name, self.library.call(CLIENT, NAMED[own.name].number, *own.numbers), told)
            if own.name == "Acquire" and told[0] == 0:
                self.held = own.numbers[0]
        return told[1]

    def give_back(self, name, canvas, told):
        """Writes the pixels of the model's canvas into the library's, which is posted or discarded."""
        give = self.library.post if name == "Post" else self.library.discard
        if canvas is None:
            self.same(name, give(CLIENT, self.chance.choice(EDGES) % 2**32), (NO_CALL, 0))
            return
        pixels = bytes(canvas.pixels)
        stride = len(pixels) // canvas.stream.h
        self.same("pixels that are too few", self.library.write(self.held, pixels[:-1], stride), False)
        self.same("rows that overlap", self.library.write(self.held, pixels, stride - 1), False)
        self.same("pixels", self.library.write(self.held, pixels, stride), True)
        self.same("what is held", self.library.holds(self.held), True)
        self.same(name, give(CLIENT, self.held), told)
        if told[0] == 0:
            self.held = None

    def frame_of(self, own, told):
        """Begins a frame in the library as the model did, reads it, and ends it."""
        begin = self.library.begin_port if own.name == "BeginPort" else self.library.begin_context
        self.same(own.name, begin(self.frame, CLIENT, *own.numbers), told)
        if told[0] == 0 and told[1] != 0:
            self.picture(self.machine.image)

    def picture(self, pixels):
        """Reads the picture of the frame that stands there in both orders, and ends it."""
        width, height = self.frame.size
        self.same("a second frame", self.library.begin_port(self.frame, CLIENT, 1), (NO_CALL, 0))
        self.same("a picture", self.frame.read(), pixels)
        swapped = bytearray(pixels)
        swapped[0::4], swapped[2::4] = swapped[2::4], swapped[0::4]
        self.same("a picture, blue first", self.frame.read(self.binding.BGRA), bytes(swapped))
        gap = self.chance.randint(0, 9)
        out = bytearray(b"\x07" * (height * (PIXEL * width + gap) - gap))
        self.same("an order that is none", self.frame.read_into(out, PIXEL * width, self.chance.randint(2, 2**32 - 1)), False)
        self.same("rows with a gap", self.frame.read_into(out, PIXEL * width + gap), True)
        rows = [pixels[PIXEL * width * y :][: PIXEL * width] for y in range(height)]
        self.same("their bytes", bytes(out), (b"\x07" * gap).join(rows))
        self.same("no room", self.frame.read_into(out[:-1], PIXEL * width + gap), False)
        self.same("the end", self.library.end(self.frame, CLIENT), (0, 0))
        self.same("a second end", self.library.end(self.frame, CLIENT), (NO_CALL, 0))

    def clock(self):
        """Composes a frame of each active context."""
        after = 0
        while True:
            code, value = self.session.call("begin_next", [after])
            self.same("BeginNext", self.library.begin_next(self.frame, CLIENT, after), (code, value))
            if code or not value:
                return
            self.machine.image = painted(*self.machine.shown)
            self.session.call("end", job_of(self.machine.frame))
            self.picture(self.machine.image)
            after = value

    def wild(self):
        """Makes a call of any number with any arguments."""
        number = self.chance.randrange(256)
        bits = [self.chance.choice((*EDGES, *range(7))) % 2**64 for _ in range(self.chance.randint(0, 9))]
        own = may_be(number, bits)
        if own is None or own.name in PAINTS or own.name in ("Post", "Discard", "BeginPort", "BeginContext"):
            self.same("a wild call", self.library.call(CLIENT, number, *bits), (NO_CALL, 0))
        elif not (own.name == "Acquire" and self.session.canvas):
            self.told(own)
