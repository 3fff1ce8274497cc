"""Tells the state of the machine on which something is measured."""

import os
import platform
import subprocess
import time
from pathlib import Path
from typing import NamedTuple

from lib.program import PROGRAM, TOP

# The variables that name what was built elsewhere.
VARIABLES = {
    "WFPLAY": "wfplay",
    "WFSERVE": "wfserve",
    "WFPICTURES": "bench_pictures",
    "WFDESK": "bench_desk",
    "WEKLANDU_A": "libweklandu.a",
}


class State(NamedTuple):
    """Holds a moment: its `time` in seconds, and the `loads`, which are the averages over 1, 5 and 15 minutes."""

    time: float
    loads: tuple


def state():
    """Returns the state now."""
    return State(time.time(), os.getloadavg())


def line_of(path, head):
    """Returns what follows `head` and a colon in the first such line of the file at a `path`, or None."""
    try:
        lines = Path(path).read_text(encoding="utf-8").splitlines()
    except OSError:
        return None
    return next((line.partition(":")[2].strip() for line in lines if line.partition(":")[0].strip() == head), None)


def processor():
    """Returns the name of the processor."""
    return line_of("/proc/cpuinfo", "model name") or platform.processor() or platform.machine()


def memory():
    """Returns how much memory there is, in words, or None where the machine does not tell."""
    size = line_of("/proc/meminfo", "MemTotal")
    return f"{int(size.split()[0]) / 2**20:.0f} GiB of memory" if size else None


def git(*words):
    """Returns what git prints for these `words` on this checkout, or nothing where it is not there."""
    try:
        ran = subprocess.run(["git", "-C", str(TOP), *words], capture_output=True, text=True, check=False)
    except OSError:
        return ""
    return ran.stdout.strip()


def commit(page):
    """Returns the commit of this checkout, in words, and whether files beside `page` are others than those of it."""
    name = git("rev-parse", "--short=10", "HEAD")
    changed = git("status", "--porcelain", "--untracked-files=no", "--", ".", f":(exclude){page}")
    return f"commit {name}" + (", with changes" if changed else "") if name else "a checkout without a commit"


def programs():
    """Returns sentences about the programs: for what `wfplay` is built, where that is kept beside it, and which of them variables name."""
    kept = PROGRAM.with_name("cpu")
    if kept.is_file():
        yield f"`wfplay` is built for {kept.read_text(encoding='utf-8').strip()}."
    named = [f"`{name}`" for variable, name in VARIABLES.items() if os.environ.get(variable)]
    if named:
        yield f"Built elsewhere and named by variables: {', '.join(named)}."


def loads(at):
    """Returns the loads of a state `at` a moment, in words."""
    return "{:.2f}, {:.2f} and {:.2f}".format(*at.loads)


def told(begun, ended, words, page):
    """Returns the paragraph on a run of the tool by `words` between the states `begun` and `ended`, and on the machine. A change of `page`
    is none of the checkout."""
    first, last = time.gmtime(begun.time), time.gmtime(ended.time)
    day, clock = f"{first.tm_mday} {time.strftime('%B %Y', first)}", [time.strftime("%H:%M", moment) for moment in (first, last)]
    own = [processor(), f"{len(os.sched_getaffinity(0))} cores", memory(), f"{platform.system()} {platform.release()}"]
    parts = [
        f"Measured on {day}, {' to '.join(clock)} UTC, in {ended.time - begun.time:.0f} seconds, by `{words}` at {commit(page)}.",
        f"The machine: {', '.join(filter(None, own))}.",
        f"Its load averages over 1, 5 and 15 minutes were {loads(begun)} at the start, and {loads(ended)} at the end.",
        *programs(),
    ]
    return " ".join(parts)
