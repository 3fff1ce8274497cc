"""Measures inputs that are as large as they may be and meant to take long: processor time, and memory that is held, for tools/bench."""

import statistics
from typing import NamedTuple

from lib import hostile
from lib.bench_scripts import ticks_script
from lib.limits import MOST_FILM, MOST_SCRIPT, MOST_SIDE
from lib.measuring import used
from lib.memory import Memory, Run
from lib.program import PROGRAM, play_bytes
from lib.tables import Left, Table, spread
from lib.tool import Refused

NO_COMMAND, TOO_LONG, NO_FILM = 2, 4, 9
FRAMES = 15
SHORTEST = 1e-3
MODES = ("film", "print")
SCRIPT_HEADS = ("Script", "Exit", "ms", "ns a byte", "over half the bytes", "bytes held for each")
FILM_HEADS = ("Film", "What is found", "ms", "ns a byte", "over half the bytes", "bytes held for each")
OTHER_HEADS = ("Input", "Bytes", "What is found", "ms", "Bytes held")


class Taken(NamedTuple):
    """Holds what an input of a `size` took: the `seconds` of each run, and how the last `run` ended."""

    size: int
    seconds: list
    run: Run

    def cells(self, half):
        """Returns what the columns tell of times and memory, beside an input of `half` the size."""
        own, other = statistics.median(self.seconds), statistics.median(half.seconds)
        held = f"{self.run.most / self.size:.2f}"
        return spread(self.seconds, 1e3, 1), f"{own / self.size * 1e9:.1f}", f"{own / max(other, SHORTEST):.2f}", held


class Tries:
    """Plays inputs by the program whose memory is counted, in a `setting`."""

    def __init__(self, setting):
        """Builds the memory that counts into the folder of a `setting`."""
        self.setting, self.memory = setting, Memory(setting.folder)

    def taken(self, mode, data, status, note=None):
        """Returns what the bytes `data` take in a `mode`, which ends with a `status` and with a `note`, where one is given."""
        given, seconds = self.setting.folder / "given", []
        given.write_bytes(data)
        for _ in range(self.setting.runs):
            before = used()
            with open(given, "rb") as source:
                ran = self.memory.run([mode], source)
            seconds.append(used() - before)
            if ran.status != status or note not in (None, ran.notes.strip()):
                wanted = f"{status}" if note is None else f"{status} with {note!r}"
                raise Refused(f"wfplay {mode}: exit status {ran.status} with {ran.notes.strip()!r}, and not {wanted}")
        return Taken(len(data), seconds, ran)

    def other(self, what, mode, data, status):
        """Returns the row of an input that stands alone: `what` it is, and what the bytes `data` take in a `mode`, which ends with a
        `status`."""
        taken = self.taken(mode, data, status)
        return what, f"{len(data):,}", f"`{taken.run.notes.strip()}`", spread(taken.seconds, 1e3, 1), f"{taken.run.most:,}"


def scripts(tries, mode):
    """Returns what the largest scripts of each kind take in a `mode`, by `tries`, beside those of half the size."""
    rows = []
    for what, (make, status) in hostile.SCRIPTS.items():
        half, whole = (tries.taken(mode, make(size), status) for size in (MOST_SCRIPT // 2, MOST_SCRIPT))
        rows.append((what, str(status), *whole.cells(half)))
    return Table(f"Scripts of {MOST_SCRIPT:,} bytes by `wfplay {mode}`:", SCRIPT_HEADS, rows)


def films(tries):
    """Returns what the largest films of each kind take that `wfplay check` reads after a script of one tick, by `tries`."""
    rows, script = [], ticks_script(1, 1, 1)
    for what, (make, verdict) in hostile.FILMS.items():
        both = []
        for size in (MOST_FILM // 2, MOST_FILM):
            film = make(size)
            both.append(tries.taken("check", script + film, *verdict(len(film))))
        rows.append((what, f"`{both[1].run.notes.strip()}`", *both[1].cells(both[0])))
    return Table(f"Films of {MOST_FILM:,} bytes, after a script of one tick, by `wfplay check`:", FILM_HEADS, rows)


def endless(tries):
    """Returns the row of an input of `wfplay film` that never ends, by `tries`."""
    with open("/dev/zero", "rb") as source:
        ran = tries.memory.run(["film"], source)
    if ran.status != TOO_LONG:
        raise Refused(f"wfplay film: exit status {ran.status} of an endless input, and not {TOO_LONG}")
    return "`film`: bytes 0 without an end", "", f"`{ran.notes.strip()}`", "", f"{ran.most:,}"


def others(tries):
    """Yields the rows of inputs of `wfplay check` that stand alone, by `tries`."""
    own = ticks_script(MOST_SIDE, MOST_SIDE, FRAMES)
    yield tries.other(f"{FRAMES} frames of {MOST_SIDE}x{MOST_SIDE} after their own script", "check", own + play_bytes(own)[1], 0)
    for what, part in hostile.ENDLESS.items():
        size = MOST_FILM + MOST_SCRIPT
        yield tries.other(f"{what} without an end", "check", (part * (size // len(part) + 1))[:size], TOO_LONG)
    script = ticks_script(1, 1, 1)
    yield tries.other("a film of one byte more than it may have", "check", script + bytes(MOST_FILM + 1), TOO_LONG)
    yield tries.other("15 bytes whose journal says that it has 4,294,967,295 entries", "check", script + hostile.SHORT, NO_FILM)


def inputs(setting):
    """Yields what inputs take that are as large as they may be and meant to take long, in a `setting`."""
    tries = Tries(setting)
    for mode in MODES:
        yield scripts(tries, mode)
    if tries.memory.run(["check"], b"").status == NO_COMMAND:
        yield Left("checks of hostile films", f"{PROGRAM.name} has no mode `check`")
        yield Table("Inputs that stand alone:", OTHER_HEADS, [endless(tries)])
        return
    yield films(tries)
    yield Table("Inputs that stand alone, by `wfplay check` but for the first:", OTHER_HEADS, [endless(tries), *others(tries)])
