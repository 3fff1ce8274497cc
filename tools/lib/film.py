"""Reads films of both forms, part by part, so that at most one frame is in memory. docs/formats.md has the forms.

A film is refused at its first fault, which has a place, the first byte that is wrong, counted from 0, and a rule:

1  the first four bytes are none of the two magics
2  the letter of a part is not one that may come here
3  the film ends too early; the place is the film's length
4  a port, a side, a client or a code is out of its range
5  something stands after the end
"""

import contextlib
from typing import NamedTuple, Optional

from lib.limits import MOST_CLIENT, MOST_NUMBER, MOST_PORTS, MOST_SIDE

# The codes of answers, each at its number.
CODES = (
    "Ok",
    "OutOfMemory",
    "IllegalArgument",
    "Unsupported",
    "NotSupported",
    "BadAttribute",
    "InUse",
    "Busy",
    "NoBuffer",
    "BadDevice",
    "BadHandle",
    "Inconsistency",
    "Limit",
)
OK = CODES.index("Ok")
MAGICS = {b"WFF1": 1, b"WFF2": 2}
STANDARD_INPUT = 0


class NoFilm(Exception):
    """A file is no film: at which byte it is wrong first, which rule that breaks, and how."""

    def __init__(self, place, rule, fault):
        super().__init__(f"this is no film: byte {place}: {fault}")
        self.place = place
        self.rule = rule


class Frame(NamedTuple):
    """A frame that a port showed. In form 2 it says at which entry of the journal it began, counted from 0."""

    port: int
    tick: int
    begin: Optional[int]
    width: int
    height: int
    pixels: bytes


class Entry(NamedTuple):
    """An entry of the journal: who asked, and the code and the value of the answer."""

    client: int
    code: int
    value: int

    def answer(self):
        """The answer, as scripts say it in comments."""
        return f"{CODES[self.code]} {self.value}"


def counted(codes):
    """Tells how many events there are and how many of them are refused, by a count of each code."""
    total = sum(codes.values())
    each = ", ".join(f"{codes[code]:,} {CODES[code]}" for code in sorted(codes) if code != OK)
    events = f"{total:,} event{'s' * (total != 1)}"
    return f"{events}, {total - codes[OK]:,} of them refused: {each}" if each else f"{events}, none of them refused"


class Film:
    """A film that is read from a stream: its form at once, then the frames, and then the entries of the journal. What is
    after the place that was asked for is not looked at yet."""

    def __init__(self, source):
        self.source = source
        self.place = 0
        magic = self.take(4, "the magic")
        if magic not in MAGICS:
            raise NoFilm(0, 1, "a film begins with WFF1 or WFF2")
        self.form = MAGICS[magic]
        self.at_journal = False

    def take(self, count, what):
        """The next bytes, which must all be there."""
        data = self.source.read(count)
        self.place += len(data)
        if len(data) < count:
            raise NoFilm(self.place, 3, f"the film ends before or inside {what}")
        return data

    def number(self, count, least, most, what):
        """The number that stands in the next bytes, the highest byte first, which must be in its range."""
        start = self.place
        value = int.from_bytes(self.take(count, what), "big")
        if not least <= value <= most:
            raise NoFilm(start, 4, f"{what} is {value}, and not from {least} to {most}")
        return value

    def tag(self, letters, what):
        """The next byte, which must be one of these letters."""
        start = self.place
        letter = self.take(1, what)
        if letter not in letters:
            wanted = " or ".join(each.decode() for each in letters)
            raise NoFilm(start, 2, f"{what} is 0x{letter.hex()}, and not {wanted}")
        return letter

    def frames(self):
        """The frames that were not asked for yet, one after the other."""
        while not self.at_journal:
            if self.tag((b"F", b"J"), "the letter of a part") == b"J":
                self.at_journal = True
                return
            port = self.number(1, 1, MOST_PORTS, "the port")
            tick = self.number(4, 0, MOST_NUMBER, "the tick")
            begin = self.number(4, 0, MOST_NUMBER, "the place of the begin") if self.form == 2 else None
            width = self.number(2, 1, MOST_SIDE, "the width")
            height = self.number(2, 1, MOST_SIDE, "the height")
            yield Frame(port, tick, begin, width, height, self.take(4 * width * height, "the pixels of a frame"))

    def entries(self):
        """The entries of the journal. Frames that were not asked for are passed over; after the last entry the film ends."""
        for _ in self.frames():
            pass
        for _ in range(self.number(4, 0, MOST_NUMBER, "the number of entries")):
            client = self.number(1, 0, MOST_CLIENT, "the client of an entry")
            code = self.number(1, 0, len(CODES) - 1, "the code of an entry")
            yield Entry(client, code, self.number(4, 0, MOST_NUMBER, "the value of an entry"))
        self.tag((b"E",), "the letter of the end")
        if self.source.read(1):
            raise NoFilm(self.place, 5, "something stands after the end")


class Survey:
    """What a first reading of a whole film tells: how many frames it has and each port's largest sides."""

    def __init__(self, film):
        self.frames = 0
        self.sides = {}
        for frame in film.frames():
            self.frames += 1
            width, height = self.sides.get(frame.port, (0, 0))
            self.sides[frame.port] = (max(width, frame.width), max(height, frame.height))
        for _ in film.entries():
            pass


class Reel:
    """Where a film comes from: a file, which can be read again, or a pipe, which can be read once."""

    def __init__(self, source):
        self.source = source
        self.again = source.seekable()
        self.start = source.tell() if self.again else 0

    def film(self):
        """The film from its start."""
        if self.again:
            self.source.seek(self.start)
        return Film(self.source)

    def survey(self):
        """What a first reading tells, or None for a pipe."""
        return Survey(self.film()) if self.again else None


@contextlib.contextmanager
def opened(name):
    """The film of this name, or the one of standard input for `-`."""
    with open(STANDARD_INPUT if name == "-" else name, "rb", closefd=name != "-") as source:
        yield Reel(source)
