"""Measures what a message of a session or of the live core costs beside the same event of a film, for tools/bench."""

from typing import NamedTuple

from lib import wire
from lib.instructions import has_valgrind, instructions
from lib.limits import MOST_SIDE
from lib.measuring import film_seconds, piece, processor_seconds, ratios
from lib.memory import Memory, compiler
from lib.program import PROGRAM
from lib.tables import Left, Table, spread

FILM, SESSION = [PROGRAM, "film"], [PROGRAM, "session"]
# How many events, and how many in a second run, between which instructions are counted.
COUNTED = (1000, 2000)
END = b"end\n"
# How often a call is made, and a port of the largest sides is shown; and the messages of a long session.
CALLS, SHOWS, MILLION = 16000, 99, 1_000_000


class Pair(NamedTuple):
    """Holds what is asked for twice: the `head` of a script and an `event` after it, the `first` bytes of an input and a `message` after
    them, how often each comes, as a `count`, and the most that a message may cost of an event, as `wanted` tells it. Where an event and a
    message are several, they have as many `parts`."""

    what: str
    head: bytes
    event: bytes
    first: bytes
    message: bytes
    count: int
    wanted: str
    parts: int = 1

    def script(self, count):
        """Returns a script with `count` events."""
        return self.head + self.event * count + END

    def input(self, count):
        """Returns an input with `count` messages."""
        return self.first + self.message * count


def times(pair, film, core, runs):
    """Returns the row of a `pair` by the times of as many `runs`: `film` tells what the play of a script takes, and `core` what an input
    does."""
    costs = [(piece(film, pair.script, pair.count), piece(core, pair.input, pair.count)) for _ in range(runs)]
    events, messages = zip(*costs)
    by = 1e6 / pair.parts
    return pair.what, spread(events, by), spread(messages, by), spread(ratios(messages, events)), pair.wanted


def counts(pair, core):
    """Returns the row of a `pair` by instructions, of which the command `core` takes the input."""
    few, many = COUNTED
    event = piece(lambda data: instructions(FILM, data), pair.script, many, few)
    message = piece(lambda data: instructions(core, data), pair.input, many, few)
    return pair.what, f"{event:,.0f}", f"{message:,.0f}", f"{message / event:.2f}", pair.wanted


def beside(pairs, core, runs):
    """Yields what the messages of all `pairs` cost that the command `core` takes: by the times of as many `runs`, and, of those that may
    come often enough, by instructions."""
    by_core = lambda data: processor_seconds(core, data)
    rows = [times(pair, film_seconds, by_core, runs) for pair in pairs]
    heads = ("What", "us an event of a film", "us a message", "over the event", "wanted, at most")
    yield Table("By processor time:", heads, rows)
    if not has_valgrind():
        yield Left("the instructions of messages", "valgrind is not there")
        return
    rows = [counts(pair, core) for pair in pairs if pair.count > COUNTED[1]]
    heads = ("What", "an event of a film", "a message", "over the event", "wanted, at most")
    yield Table("By instructions:", heads, rows)


def pairs():
    """Returns what is asked for once by a script and once by a session."""
    port, large = wire.header([(4, 2)]), wire.header([(MOST_SIDE, MOST_SIDE)])
    script, large_script = b"WFS1\nport 4x2\n", b"WFS1\nport %dx%d\n" % (MOST_SIDE, MOST_SIDE)
    device, asked = port + wire.message("DeviceNew"), wire.message("GetError", 1)
    shown = f"a port of {MOST_SIDE}x{MOST_SIDE} shown"
    return [
        Pair("a register asked for its error", script + b"0 d = device\n", b"0 error d\n", device, asked, CALLS, "1.5"),
        Pair("a port attached", script, b"0 attach 1 1\n", port, wire.message("Attach", 1, 1), CALLS, "1.5"),
        Pair(shown, large_script, b"0 tick\n", large, wire.message("BeginPort", 1), SHOWS, "1.2"),
    ]


def sessions(setting):
    """Yields what a message of a session costs beside the same event of a film, and the memory of a long session, in a `setting`."""
    yield from beside(pairs(), SESSION, setting.runs)
    if not compiler():
        yield Left("the memory of sessions", "there is no C compiler")
        return
    memory, message = Memory(setting.folder), wire.message("Stat", "streams")
    held = [(f"{count:,}", f"{memory.run(['session'], wire.header([(4, 2)]) + message * count).most:,}") for count in (1, MILLION)]
    yield Table("The most bytes that a session holds at once:", ("Messages", "Bytes"), held)
