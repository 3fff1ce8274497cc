"""The live core on the machine of lib/names.py, by docs/live.md and apart from the program: what each message of several clients is
answered, and which frames come with a tick. Calls, paints and pictures are those of sessions, lib/session.py."""

import io
import math
import struct

from lib.film import CODES
from lib.limits import MOST_DEPTH, MOST_SIDE
from lib.live import (
    APP_BYTES,
    APP_STREAMS,
    APPS,
    GONE,
    LEAST_FRAME,
    LEFT,
    LENGTH,
    MANAGER,
    MANAGER_BYTES,
    MANAGER_STREAMS,
    MOST_FRAME,
    MOST_TOLD,
    NO_CALL,
    OUTPUT,
    OWN,
    PUT,
    SIZE,
    TELL,
    TICK,
    TOLD,
    WAIT,
    WITH_BYTES,
    answer_bytes,
    framed,
    may_send,
    ranges_of,
)
from lib.model import bytes_of, new_stream
from lib.names import Counted
from lib.player import PAINTED
from lib.session import Session
from lib.wire import ARGUMENT, MESSAGES, Reader

OK, ILLEGAL, UNSUPPORTED, BAD_HANDLE, LIMIT = map(CODES.index, ("Ok", "IllegalArgument", "Unsupported", "BadHandle", "Limit"))
# The calls that name a stream, which an app must have made, and the one that makes it.
NAMES_STREAM, MAKES_STREAM = ("StreamDestroy", "Acquire"), ("StreamNew", "StreamQueue")
# How many pictures are kept, so that a scene that stays is not painted again.
MOST_PAINTED = 8
FRAME_HEAD = struct.Struct(">cBIHH")
# What stands between the head and the pixels of a band: its first row, and how many rows it has.
ROWS_HEAD = struct.Struct(">HH")
FRAME, BAND = b"F", b"B"


class Refused(Exception):
    """A message is refused with a code, and nothing changes."""

    def __init__(self, code, value=0):
        super().__init__(code)
        self.code = code
        self.value = value


def need(holds, code):
    """Refuses a message with a `code` where something does not hold."""
    if not holds:
        raise Refused(code)


def asked_bytes(queue, width, height, form, count):
    """Returns the bytes of the buffers of a new stream, a queue or a plain one, or 0 where a number is out of its range."""
    least, most = (1, MOST_DEPTH) if queue else (2, 4)
    if not (1 <= width <= MOST_SIDE and 1 <= height <= MOST_SIDE and least <= count <= most):
        return 0
    return bytes_of(new_stream(width, height, form, count + queue))


class Hands(Session):
    """What one client holds, on the machine that all share. Its calls are not counted."""

    # A session makes a machine of its own, so its beginning is not this one's.
    def __init__(self, machine):  # pylint: disable=super-init-not-called
        self.machine = machine
        self.quota = self.left = math.inf
        self.canvas = None


class Live:
    """The core: the machine of some `ports` and `pipes`, what each client holds, who made which stream, who waits, the tick's number, and
    of each port the picture that was put last. A picture of a port that is another one goes to `put_frame`, by its port, its tick, its
    sides, its pixels, and those of the picture that was put last, or None where there is none of these sides."""

    def __init__(self, ports, pipes, put_frame):
        self.machine = Counted([[size] for size in ports], pipes)
        self.hands = {client: Hands(self.machine) for client in (MANAGER, *APPS)}
        self.clock = Hands(self.machine)
        self.makers = {}
        self.waiting = set()
        self.ticks = 0
        self.last = {}
        self.put_frame = put_frame
        self.out = []

    def answers(self, client, data):
        """Returns the answers to a message of a `client`, whose number, arguments and payload are `data`: pairs of who gets each and its
        bytes."""
        self.out = []
        number = data[0]
        try:
            need(may_send(client, number), UNSUPPORTED)
            own = self.carried_out(client, number, data[1:])
        except Refused as refused:
            own = answer_bytes(number, refused.code, refused.value)
        if own is not None:
            self.tell_to(client, own)
        if number == TICK and own[1] == OK:
            self.wake()
        if len(PAINTED) > MOST_PAINTED:
            PAINTED.clear()
        return self.out

    def tell_to(self, client, answer):
        """Puts an `answer` to a `client`."""
        self.out.append((client, answer))

    def carried_out(self, client, number, data):
        """Carries a message out that its client may send. Returns its answer, or None where that comes later."""
        ranges = ranges_of(number)
        size = ARGUMENT * len(ranges)
        need(len(data) >= size if number in WITH_BYTES else len(data) == size, ILLEGAL)
        numbers = [int.from_bytes(data[at : at + ARGUMENT], "big", signed=True) for at in range(0, size, ARGUMENT)]
        need(all(least <= each <= most for each, (least, most) in zip(numbers, ranges)), ILLEGAL)
        if number in OWN:
            return getattr(self, OWN[number].name)(client, *numbers, *([data[size:]] if number in WITH_BYTES else []))
        return self.call(client, number, numbers, data)

    # Calls.

    def call(self, client, number, numbers, data):
        """Makes a call, or a paint, with the canvas that the client holds."""
        name = MESSAGES[number].name
        message = Reader(io.BytesIO(bytes([number]) + data)).message()
        if name in MAKES_STREAM:
            self.need_share(client, asked_bytes(name == "StreamQueue", *message.words))
        if name in NAMES_STREAM:
            self.need_maker(client, numbers[0])
        answer = b"".join(self.hands[client].answer(message))
        if name == "StreamDestroy" and answer[0] == OK:
            self.makers.pop(numbers[0], None)
        if name in MAKES_STREAM and answer[0] == OK:
            self.makers[int.from_bytes(answer[1:5], "big")] = client
        return bytes([number]) + answer

    def need_share(self, client, size):
        """Refuses a new stream, of `size` bytes, that would pass the share of its client."""
        streams, most = (MANAGER_STREAMS, MANAGER_BYTES) if client == MANAGER else (APP_STREAMS, APP_BYTES)
        own = [self.machine.live[stream] for stream, maker in self.makers.items() if maker == client]
        need(len(own) < streams, LIMIT)
        need(sum(map(bytes_of, own)) + size <= most, LIMIT)

    def need_maker(self, client, stream):
        """Refuses a stream that an app did not make, as one that is not there."""
        need(client == MANAGER or self.makers.get(stream) == client, BAD_HANDLE)

    def live_stream(self, stream):
        """Returns the live stream of a handle, or refuses it."""
        thing = self.machine.live.get(stream)
        need(thing is not None and thing.kind == "stream", BAD_HANDLE)
        return thing

    # The messages that are no calls, each by its name.

    def put(self, client, x, y, w, h, pixels):
        """Writes a rectangle of pixels into the canvas that a client holds."""
        canvas = self.hands[client].canvas
        need(canvas is not None, NO_CALL)
        width, height, size = canvas.stream.w, canvas.stream.h, canvas.size
        need(w >= 1 and h >= 1 and x >= 0 and y >= 0 and x + w <= width and y + h <= height, ILLEGAL)
        need(len(pixels) == size * w * h, ILLEGAL)
        for row in range(h):
            at = size * (width * (y + row) + x)
            canvas.pixels[at : at + size * w] = pixels[size * w * row : size * w * (row + 1)]
        return answer_bytes(PUT, OK, 0)

    def tick(self, _):
        """Composes each active context, and then each port, whose picture is put where it is another one than was put last."""
        self.ticks += 1
        context = 0
        while True:
            code, context = self.machine.call("begin_next", [context])
            if context == 0:
                break
            if code == OK:
                self.clock.frame(code, context, False)
        for port in range(1, len(self.machine.ports) + 1):
            code, value = self.machine.call("begin_port", [port])
            if value:
                head, pixels = self.clock.frame(code, value, True)
                sides = struct.unpack(">HH", head[-4:])
                before = self.last.get(port, (None, None))
                if before != (sides, pixels):
                    self.put_frame(port, self.ticks, *sides, pixels, before[1] if before[0] == sides else None)
                    self.last[port] = sides, pixels
        return answer_bytes(TICK, OK, self.ticks)

    def wait(self, client):
        """Answers with the next tick."""
        need(client not in self.waiting, NO_CALL)
        self.waiting.add(client)

    def wake(self):
        """Answers those who wait, by rising number."""
        for client in sorted(self.waiting):
            self.tell_to(client, answer_bytes(WAIT, OK, self.ticks))
        self.waiting = set()

    def tell(self, client, other, data):
        """Tells bytes to another client, or to the same one."""
        need(len(data) <= MOST_TOLD, ILLEGAL)
        need(client not in APPS or other == MANAGER, UNSUPPORTED)
        self.tell_to(other, answer_bytes(TOLD, OK, client, data))
        return answer_bytes(TELL, OK, 0)

    def size(self, client, stream):
        """Tells the sides of a stream."""
        self.need_maker(client, stream)
        thing = self.live_stream(stream)
        return answer_bytes(SIZE, OK, thing.w * 65536 + thing.h)

    def gone(self, _, client):
        """Lets go of all that a client has, and tells the window manager. After the output the next one gets each port whole."""
        if client in self.hands:
            self.hands[client].close()
        for stream in [stream for stream, maker in sorted(self.makers.items()) if maker == client]:
            del self.makers[stream]
            if stream in self.machine.live:
                self.machine.call("del_stream", [stream])
        self.waiting.discard(client)
        if client == OUTPUT:
            self.last = {}
        self.tell_to(MANAGER, answer_bytes(LEFT, OK, client))
        return answer_bytes(GONE, OK, 0)


def film_frame(port, tick, width, height, pixels, _=None):
    """Returns a picture as a frame, as a film of form 1 has it."""
    return FRAME_HEAD.pack(FRAME, port, tick, width, height) + pixels


def band(port, tick, width, height, pixels, before):
    """Returns a picture as the rows from the first to the last one that differs from those of the picture `before`, or as a frame where
    that is None."""
    if before is None:
        return film_frame(port, tick, width, height, pixels)
    size = 4 * width
    rows = [at for at in range(0, len(pixels), size) if pixels[at : at + size] != before[at : at + size]]
    first, end = rows[0], rows[-1] + size
    head = FRAME_HEAD.pack(BAND, port, tick, width, height)
    return head + ROWS_HEAD.pack(first // size, (end - first) // size) + pixels[first:end]


def film_frames(data, last=None):
    """Yields the pictures that stand in `data` as frames, or as bands, which are pasted: each with its port, its tick, its sides and its
    pixels. `last` keeps the pixels of each port's last one, from one part of an output's frames to the next."""
    last, at = {} if last is None else last, 0
    while at < len(data):
        letter, port, tick, width, height = FRAME_HEAD.unpack_from(data, at)
        at += FRAME_HEAD.size
        first, count = 0, height
        if letter == BAND:
            first, count = ROWS_HEAD.unpack_from(data, at)
            at += ROWS_HEAD.size
        size = 4 * width
        rows = data[at : at + size * count]
        at += size * count
        if letter == BAND:
            before = memoryview(last[port])
            rows = b"".join((before[: size * first], rows, before[size * (first + count) :]))
        last[port] = bytes(rows)
        yield port, tick, width, height, last[port]


def screen_picture(width, pixels, stride):
    """Returns a picture as a framebuffer has it: rows `stride` bytes apart, of words of X R G B with the lowest byte first, which are B, G,
    R and the alpha; zeros stand after each row."""
    turned = bytearray(pixels)
    turned[0::4], turned[2::4] = pixels[2::4], pixels[0::4]
    row, rest = 4 * width, bytes(stride - 4 * width)
    return b"".join(turned[at : at + row] + rest for at in range(0, len(turned), row))


def serve(source, sink, live):
    """Serves the frames of a `source` by a core, and writes the answers to a `sink`. Returns the byte at which a frame began that is none,
    or None where the input ended."""
    at = 0
    while True:
        head = source.read(LENGTH)
        length = int.from_bytes(head, "big")
        if not head:
            return None
        if len(head) < LENGTH or not LEAST_FRAME <= length <= MOST_FRAME:
            return at
        data = source.read(length)
        if len(data) < length:
            return at
        at += LENGTH + length
        sink.write(b"".join(framed(bytes([client]), answer) for client, answer in live.answers(data[0], data[1:])))

