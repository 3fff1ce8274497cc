"""Sessions as bytes, by docs/formats.md and apart from the program: they are read field by field up to the first that breaks a rule, and
written. Which messages there are and what their arguments may be says the table of calls."""

import io
from typing import NamedTuple, Optional

from lib.calls import table
from lib.calls_pages import end_of, words_of
from lib.calls_wire import ends_of, kinds, kinds_of
from lib.limits import MOST_PIPES, MOST_PORTS, MOST_SIDE

MAGIC = b"WFW1"
# How many bytes an argument has, and from which byte on no message begins.
ARGUMENT = 8
MESSAGES_END = 1_073_741_824
# The rules of a session: what is wrong where each is broken.
IN_HEADER, NO_MESSAGE, NOT_OF_KIND, CUT, TOO_LATE = 1, 2, 3, 4, 5

TABLE = table()
MESSAGES = {message.number: message for message in TABLE.messages}
NAMED = {message.name: message for message in TABLE.messages}
PAINTS = {message.name for message in TABLE.paints}
# The words that numbers of a kind stand for.
WORDS = words_of(TABLE)
ANY = (-(2**63), 2**63 - 1)
# How many numbers an argument of several has.
FOUR = 4


def range_of(kind):
    """Returns the least and the most number of a kind."""
    ends = ends_of(kind, TABLE)
    return (end_of(ends[0]), end_of(ends[1])) if ends else ANY


RANGES = {kind.name: range_of(kind) for kind in kinds(TABLE)}


class Stop(Exception):
    """A session ends before its input does. The text is how the cases of cases_wire tell it."""


class Broken(Stop):
    """A field breaks a rule: the place that is told, and the rule."""

    def __init__(self, at, rule):
        super().__init__(f"BadMessage {at} {rule}")
        self.at = at
        self.rule = rule


class Header(NamedTuple):
    """What the header of a session declares: the width and the height of each port, and how many pipelines there are."""

    ports: list
    pipes: int


class Message(NamedTuple):
    """A message: its place in the input, its name in the table of calls, and the numbers of its arguments, in order."""

    at: int
    name: str
    numbers: list

    @property
    def words(self):
        """Returns the arguments as scripts have them: the word, where a number stands for one."""
        own = zip(kinds_of(NAMED[self.name]), self.numbers)
        return [WORDS[kind][number] if kind in WORDS else number for kind, number in own]


class Told(NamedTuple):
    """A whole session: its header where that has no fault, its messages, and the place and the rule of the first fault, if any."""

    header: Optional[Header]
    messages: list
    fault: Optional[tuple]


class Reader:
    """Reads a session from a source, whose `read` gives fewer bytes than it is asked for only where the input ends."""

    def __init__(self, source):
        self.source = source
        self.at = 0

    def field(self, count):
        """Returns the bytes of the next field. Breaks rule 4 at the input's length where that ends before."""
        data = self.source.read(count)
        self.at += len(data)
        if len(data) < count:
            raise Broken(self.at, CUT)
        return data

    def number(self, count, ends, rule, signed=False):
        """Returns the number of the next field. Breaks a rule at the field where it is not from the one of the `ends` to the other."""
        start = self.at
        number = int.from_bytes(self.field(count), "big", signed=signed)
        if not ends[0] <= number <= ends[1]:
            raise Broken(start, rule)
        return number

    def header(self):
        """Returns what the header declares."""
        magic = int.from_bytes(MAGIC, "big")
        self.number(len(MAGIC), (magic, magic), IN_HEADER)
        count = self.number(1, (1, MOST_PORTS), IN_HEADER)
        ports = [(self.side(), self.side()) for _ in range(count)]
        return Header(ports, self.number(1, (0, MOST_PIPES), IN_HEADER))

    def side(self):
        """Returns a side of a port."""
        return self.number(2, (1, MOST_SIDE), IN_HEADER)

    def message(self):
        """Returns the next message, or None where the input ends."""
        at = self.at
        first = self.source.read(1)
        if not first:
            return None
        self.at += 1
        if at >= MESSAGES_END:
            raise Broken(at, TOO_LATE)
        if first[0] not in MESSAGES:
            raise Broken(at, NO_MESSAGE)
        message = MESSAGES[first[0]]
        numbers = [self.number(ARGUMENT, RANGES[kind], NOT_OF_KIND, signed=True) for kind in kinds_of(message)]
        return Message(at, message.name, numbers)

    def messages(self):
        """Yields the messages up to the end of the input."""
        while (message := self.message()) is not None:
            yield message


def messages(data):
    """Returns what the bytes of a session tell."""
    reader, head, found = Reader(io.BytesIO(data)), None, []
    try:
        head = reader.header()
        for message in reader.messages():
            found.append(message)
    except Broken as fault:
        return Told(head, found, (fault.at, fault.rule))
    return Told(head, found, None)


# Sessions are written.


def header(ports, pipes=0):
    """Returns the bytes of a header, of ports with their widths and heights."""
    sides = b"".join(side.to_bytes(2, "big") for port in ports for side in port)
    return MAGIC + bytes([len(ports)]) + sides + bytes([pipes])


def arguments_of(message):
    """Returns the arguments that a message is written with, each with its kind."""
    return [(name, kind) for name, kind in message.arguments if kind != "canvas"]


def numbers_of(kind, value):
    """Returns the numbers of an argument: of a word its own, and where it has four those that are given, and then zeros."""
    if kind == "values":
        given = [value] if isinstance(value, int) else list(value)
        if len(given) > FOUR:
            raise ValueError(f"{len(given)} numbers are given, and an argument has four at most")
        return given + [0] * (FOUR - len(given))
    return [WORDS[kind].index(value) if isinstance(value, str) else value]


def message(name, *values):
    """Returns the bytes of a message, by its name in the table of calls and a value for each argument."""
    own = NAMED[name]
    arguments = arguments_of(own)
    if len(values) != len(arguments):
        raise TypeError(f"{name} has {len(arguments)} arguments, and not {len(values)}")
    numbers = [number for (_, kind), value in zip(arguments, values) for number in numbers_of(kind, value)]
    return bytes([own.number]) + b"".join(number.to_bytes(ARGUMENT, "big", signed=True) for number in numbers)
