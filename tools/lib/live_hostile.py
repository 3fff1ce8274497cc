"""Hostile clients of a live system, and what has to come of each: it is refused or cut off, and the others go on."""

import contextlib
import select
import socket
import sys
import threading
import time

from lib.film import CODES
from lib.live import APP_STREAMS, LENGTH, MANAGER, MOST_FRAME, MOST_TOLD, NO_CALL, answer_of, body, framed
from lib.living import LIVE
from lib.serving import film_frames

sys.path.insert(0, str(LIVE))

from wfclient import Client, Output  # noqa: E402
from words import SHOW, word  # noqa: E402

PIECE = 1 << 18
# How long an answer of a good client may take beside hostile ones, and how long it takes at most until one is cut off.
GENEROUS, CUT_OFF = 5, 15
OK, ILLEGAL, UNSUPPORTED, BAD_HANDLE = (CODES.index(name) for name in ("Ok", "IllegalArgument", "Unsupported", "BadHandle"))
MOST_APPS = 7
# So many apps, one after the other, take more streams than there are.
GREEDY = 20


def raw(place):
    """Returns a socket that is connected as an app."""
    own = socket.socket(socket.AF_UNIX, socket.SOCK_STREAM)
    own.settimeout(CUT_OFF)
    own.connect(str(place / "app"))
    return own


def is_cut_off(own):
    """Returns whether the other end closes a socket, whatever comes before."""
    try:
        while own.recv(PIECE):
            pass
        return True
    except TimeoutError:
        return False
    except OSError:
        return True


def next_answers(own, count):
    """Returns the next answers that a socket gets, or fewer where it is cut off."""
    data, found = b"", []
    while len(found) < count:
        while len(data) < LENGTH or len(data) < LENGTH + int.from_bytes(data[:LENGTH], "big"):
            more = own.recv(PIECE)
            if not more:
                return found
            data += more
        end = LENGTH + int.from_bytes(data[:LENGTH], "big")
        found.append(answer_of(data[LENGTH:end]))
        data = data[end:]
    return found


def first_answer(own):
    """Returns the first answer that a socket gets."""
    return next_answers(own, 1)[0]


def asks(place):
    """Yields messages that are refused, each with what it is, and whether it was."""
    with Client("app", place) as good, Client("app", place) as evil:
        mine = good.stream_new(32, 32, "rgbx", 3).value
        wanted = [
            ("acquires another's stream", "Acquire", (mine,), BAD_HANDLE),
            ("destroys another's stream", "StreamDestroy", (mine,), BAD_HANDLE),
            ("asks for another's sides", "size", (mine,), BAD_HANDLE),
            ("acquires a handle that was never given", "Acquire", (999_999,), BAD_HANDLE),
            ("acquires the handle -1", "Acquire", (-1,), ILLEGAL),
            ("makes a device", "DeviceNew", (), UNSUPPORTED),
            ("commits a pipeline", "CommitPipe", (1,), UNSUPPORTED),
            ("turns the port off", "PortSet", (1, "power", 0), UNSUPPORTED),
            ("takes the display away", "Attach", (1, 0), UNSUPPORTED),
            ("reads the port", "BeginPort", (1,), UNSUPPORTED),
            ("ticks", "tick", (), UNSUPPORTED),
            ("says that another is gone", "gone", (1,), UNSUPPORTED),
            ("speaks to another app", "tell", (1,), UNSUPPORTED),
            ("speaks to the output", "tell", (8,), UNSUPPORTED),
            ("posts without a canvas", "Post", (), NO_CALL),
            ("puts without a canvas", "put", (0, 0, 1, 1), NO_CALL),
            ("asks for a stream of 2000 pixels", "StreamNew", (2000, 10, "rgbx", 2), ILLEGAL),
        ]
        for what, name, values, code in wanted:
            yield f"an app {what}", evil.say(name, *values).code == code
        evil.acquire(evil.stream_new(16, 16, "rgbx", 3))
        for what, values, data in (
            ("more pixels than it says", (0, 0, 16, 16), b"x" * 5000),
            ("pixels outside of its canvas", (10, 10, 16, 16), b"x" * 1024),
            ("at a negative place", (-1, 0, 4, 4), b"x" * 64),
            ("a width of 2^40", (0, 0, 1 << 40, 1), b""),
        ):
            yield f"an app puts {what}", evil.put(*values, data).code == ILLEGAL
        yield "the good app's stream is as it was", good.acquire(mine).code == OK and good.post().code == OK


def frames(place):
    """Yields frames that are none, or strange, in the same way."""
    for length in (0, MOST_FRAME, 0xFFFFFFFF):
        with raw(place) as own:
            own.sendall(length.to_bytes(LENGTH, "big"))
            yield f"a length of {length} is cut off", is_cut_off(own)
    with raw(place) as own:
        own.sendall(framed(b"\x63", bytes(MOST_FRAME - 2)))
        yield "the longest frame is answered", first_answer(own)[:2] == (0x63, UNSUPPORTED)
    with raw(place) as own:
        # The numbers of what comes unasked, as often as the broker lets one client ask before it is answered, and once more.
        own.sendall(framed(b"\x37") * 100 + framed(b"\x38") * 100 + framed(body("size", 1)))
        yield "messages with the numbers of events are answered", [each[:2] for each in next_answers(own, 201)] == (
            [(55, UNSUPPORTED)] * 100 + [(56, UNSUPPORTED)] * 100 + [(54, BAD_HANDLE)])
    for part in (b"\0", b"\0\0\0", b"\0\0\0\x09", b"\0\0\0\x09\x04", b"\0\x40\0\x21\x32" + bytes(100_000)):
        with raw(place) as own:
            own.sendall(part)
    with Client("app", place) as good:
        yield "after apps that left inside of a frame the next is answered", good.size(1).code == BAD_HANDLE
    with raw(place) as own:
        for byte in framed(body("size", 7)) * 3:
            own.sendall(bytes([byte]))
        yield "frames that come byte by byte are answered", first_answer(own)[:2] == (54, BAD_HANDLE)


def leaving(place):
    """Yields what comes of apps that leave, in the same way."""
    stale = 0
    for _ in range(50):
        with raw(place) as own:
            own.sendall(framed(body("StreamNew", 8, 8, "rgbx", 2)) * 3)
        with raw(place) as own:
            own.sendall(framed(body("size", 1)))
            stale += first_answer(own)[:2] != (54, BAD_HANDLE)
    yield "no app gets the answers of one before it", stale == 0
    taken = [streams_taken(place) for _ in range(GREEDY)]
    yield f"each of {GREEDY} apps in turn can take its share of streams, and no more", taken == [APP_STREAMS] * GREEDY


def streams_taken(place):
    """Returns how many streams an app can take that asks for ever more, and beside which a good one still gets its own."""
    count = 0
    with Client("app", place) as greedy, Client("app", place) as good:
        while greedy.stream_new(16, 16, "rgbx", 2).code == OK:
            count += 1
        stream = good.stream_new(16, 16, "rgbx", 2)
        return count if stream.code == OK and good.size(stream.value).code == OK else None


def is_soon(holds):
    """Returns whether something holds within a generous time."""
    end = time.monotonic() + GENEROUS
    while not holds():
        if time.monotonic() > end:
            return False
        time.sleep(0.01)
    return True


def outputs(place):
    """Yields what comes of outputs that leave without their frames, each of which has more bytes than a pipe takes, in the same way."""
    with Output(place) as first:
        tick = first.shown()[0]
    for count in (1, 1, 3):
        with Output(place) as bad:
            for _ in range(count):
                bad.tick()
            bad.flush()
            tick += count
    with Output(place) as good:
        number, data = good.shown()
        shown = [(frame[0], frame[1]) for frame in film_frames(data)]
        yield "an output that leaves inside of a frame holds nobody up", number == tick + 1
        yield "and the next one gets its own frames alone", shown == [(1, number)]


def crowds(place):
    """Yields what comes of more apps than there are numbers, in the same way. No other app may be connected."""
    with contextlib.ExitStack() as all_apps:
        apps = [all_apps.enter_context(raw(place)) for _ in range(MOST_APPS + 1)]
        for app in apps:
            app.sendall(framed(body("size", 1)))
        answered = [first_answer(app) is not None for app in apps[:-1]]
        yield "seven apps are answered", all(answered)
        yield "an eighth one waits", not select.select([apps[-1]], [], [], 0.3)[0]
        apps[0].close()
        yield "until one of them leaves", first_answer(apps[-1])[:2] == (54, BAD_HANDLE)


# What a flood asks for: paints without a canvas, or the dearest call there is, which clears a large canvas, and is taken back.
CHEAP = framed(body("Fill", 1, 2, 3, 4)) * 1000


def dear(stream):
    """Returns the dearest calls, on a `stream` of the app's."""
    return (framed(body("Acquire", stream)) + framed(body("Discard"))) * 1000


def showings(place):
    """Yields what comes of apps that ask the window manager for what is not theirs, for too much, or for nothing, in the same way. What they
    leave is looked at by who knows the window manager."""
    with Client("app", place) as good, Client("app", place) as evil:
        foreign = good.stream_new(8, 8, "rgbx", 2).value
        mask = evil.stream_new(8, 8, "a8", 2).value
        for stream in (foreign, mask, 0, -1, 999_999, 2**31 - 1):
            evil.tell(MANAGER, word(SHOW, stream, 5, 2000))
        for data in (b"", b"w", b"w" * 12, b"w" * 14, b"\xff" * 13, b"x" * MOST_TOLD):
            evil.tell(MANAGER, data)
        streams = []
        while (made := evil.stream_new(1024, 1, "rgbx", 2)).code == OK:
            streams.append(made.value)
        for stream in streams * 20:
            evil.tell(MANAGER, word(SHOW, stream, 1024, 1))
        evil.size(0).awaited()
        yield "an app may tell the window manager anything", good.size(foreign).code == OK


class Flood(threading.Thread):
    """An app that asks as fast as it can: for `calls`, once it has asked `before`. Where it reads no answer, it ends when it is cut off."""

    def __init__(self, place, reads, calls=CHEAP, before=b""):
        super().__init__(daemon=True)
        self.socket = raw(place)
        self.socket.setblocking(False)
        self.reads = reads
        self.calls = calls
        self.left = before
        self.is_cut_off = False
        self.is_over = False

    def run(self):
        while not self.is_over and not self.is_cut_off:
            readable, writable, _ = select.select([self.socket] if self.reads else [], [self.socket], [], 0.1)
            try:
                if readable:
                    self.is_cut_off = not self.socket.recv(PIECE)
                if writable:
                    self.left = self.left or self.calls
                    self.left = self.left[self.socket.send(self.left) :]
            except OSError:
                self.is_cut_off = True

    def end(self):
        """Ends it."""
        self.is_over = True
        self.join()
        self.socket.close()


def waits(place, seconds):
    """Returns how long a good app waited at most for an answer, in so many seconds."""
    most, end = 0, time.monotonic() + seconds
    with Client("app", place) as good:
        stream = good.stream_new(16, 16, "rgbx", 3).value
        while time.monotonic() < end:
            begun = time.monotonic()
            good.acquire(stream)
            good.discard()
            good.sync()
            most = max(most, time.monotonic() - begun)
    return most


def floods(place):
    """Yields what comes of apps that ask without end, in the same way."""
    flood = Flood(place, True)
    flood.start()
    waited = waits(place, 2)
    flood.end()
    yield f"beside a flood a good app is answered in {GENEROUS} s (it was {1000 * waited:.0f} ms at most)", waited < GENEROUS
    with Client("app", place) as good:
        # Handles are given in order, so the flood's stream has the next one.
        stream = good.stream_new(1, 1, "rgba", 2).value + 1
    flood = Flood(place, True, dear(stream), framed(body("StreamNew", 1024, 1024, "rgba", 2)))
    flood.start()
    waited = waits(place, 2)
    flood.end()
    yield f"beside a flood of the dearest calls, too (it was {1000 * waited:.0f} ms at most)", waited < GENEROUS
    flood = Flood(place, False)
    flood.start()
    waited = waits(place, 1)
    yield f"beside one that never reads, too (it was {1000 * waited:.0f} ms at most)", waited < GENEROUS
    flood.join(CUT_OFF)
    yield "one that never reads is cut off", flood.is_cut_off
    flood.end()


HOSTILE = (asks, frames, leaving, outputs, showings, crowds, floods)
