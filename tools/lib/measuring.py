"""Runs programs and takes the processor time that they need, for the parts of tools/bench."""

import contextlib
import math
import os
import resource
import subprocess
from pathlib import Path
from typing import NamedTuple

from lib.program import PROGRAM
from lib.tool import Refused


class Setting(NamedTuple):
    """Says where a part has its files, in a `folder` of its own, and how many `runs` it takes."""

    folder: Path
    runs: int


def used():
    """Returns the processor seconds of all programs that ran and ended so far."""
    taken = resource.getrusage(resource.RUSAGE_CHILDREN)
    return taken.ru_utime + taken.ru_stime


def look_at(words, ended, status):
    """Raises Refused where the run of `words` that `ended` did so with another exit status than `status`."""
    if ended.returncode != status:
        notes = ended.stderr.decode("utf-8", "replace").strip().splitlines()
        told = f"{Path(words[0]).name} {' '.join(map(str, words[1:]))}: exit status {ended.returncode}, and not {status}"
        raise Refused(f"{told}: {notes[-1]}" if notes else told)


def processor_seconds(words, given, taken=os.devnull, status=0):
    """Returns the processor seconds of a run of `words` that reads the bytes or the file `given`, writes into the file `taken`, and ends
    with an exit `status`."""
    before = used()
    with contextlib.ExitStack() as files:
        source = {"input": given} if isinstance(given, bytes) else {"stdin": files.enter_context(open(given, "rb"))}
        sink = files.enter_context(open(taken, "wb"))
        ended = subprocess.run([str(word) for word in words], **source, stdout=sink, stderr=subprocess.PIPE, check=False)
    look_at(words, ended, status)
    return used() - before


def film_seconds(given, taken=os.devnull, status=0):
    """Returns the same of a play of the script `given`, whose film goes into the file `taken`, with an exit `status`."""
    return processor_seconds([PROGRAM, "film"], given, taken, status)


def printed(words):
    """Returns what a run of `words` prints."""
    ended = subprocess.run([str(word) for word in words], stdin=subprocess.DEVNULL, capture_output=True, check=False)
    look_at(words, ended, 0)
    return ended.stdout.decode("utf-8", "replace")


def piece(cost, made, many, few=0):
    """Returns what one piece costs: the `cost` of an input that is `made` of `many` pieces, less that of one of `few`, for each piece that
    the first has more."""
    return (cost(made(many)) - cost(made(few))) / (many - few)


def ratios(costs, others):
    """Returns each of the `costs` over the one of the `others` that was taken with it."""
    return [cost / other if other else math.nan for cost, other in zip(costs, others)]
