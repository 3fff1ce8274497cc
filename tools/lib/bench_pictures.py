"""Reads the times of pictures, paints and desks that bench_pictures and bench_desk print, and tells their medians, for tools/bench."""

import re
from collections import defaultdict

from lib.measuring import printed
from lib.program import DESK, PICTURES
from lib.tables import Table, spread
from lib.tool import Refused

PICTURE = re.compile(r"^a picture of (\w+), (.+): ([\d.]+) ns a pixel$")
# What follows the pictures of a size.
APART = re.compile(r"^the (16 windows, each whole and on a target of its own): ([\d.]+) ns a pixel$")
BY_WORKERS = re.compile(r"^a picture of (\w+), (.+), by (\d+) workers: ([\d.]+) times as fast$")
FILLED = re.compile(r"^(.+): (\d+) us$")
ORDER = re.compile(r"^(\d+ calls on the order of \d+ elements), \d+ done by links, \d+ by vectors: (\d+) us by links, (\d+) us by vectors$")
CALLS = re.compile(r"^threads (\d+): (\d+) calls a second behind a desk, (\d+) in a lock$")


def told_by(program, word, *patterns):
    """Returns what each line says that a `program` of benches prints for a `word`: which of the `patterns` it has, and the words there."""
    found = []
    for line in printed([program, word]).splitlines():
        match = next(filter(None, (pattern.match(line) for pattern in patterns)), None)
        if match is None:
            raise Refused(f"{program.name} {word}: a line that is not read: {line}")
        found.append((match.re, match.groups()))
    return found


def pictures(setting):
    """Yields what a pixel of a picture of each kind takes, by its sides, in a `setting`."""
    costs, sides = defaultdict(list), ()
    for _ in range(setting.runs):
        size = None
        for pattern, groups in told_by(PICTURES, "picture", PICTURE, APART):
            size, kind, cost = groups if pattern is PICTURE else (size, *groups)
            sides = (*sides, size) if size not in sides else sides
            costs[kind, size].append(float(cost))
    kinds = dict.fromkeys(kind for kind, _ in costs)
    rows = [(kind, *(spread(costs[kind, size], digits=3) for size in sides)) for kind in kinds]
    yield Table("ns a pixel of a picture, painted by one worker:", ("Scene", *sides), rows)


def workers(setting):
    """Yields how many times as fast several workers paint a picture as one does, in a `setting`."""
    speeds = defaultdict(list)
    for _ in range(setting.runs):
        for _, (size, kind, count, speed) in told_by(PICTURES, "rows", BY_WORKERS):
            speeds[kind, size, count].append(float(speed))
    counts = list(dict.fromkeys(count for *_, count in speeds))
    scenes = dict.fromkeys((kind, size) for kind, size, _ in speeds)
    rows = [(*scene, *(spread(speeds[(*scene, count)]) for count in counts)) for scene in scenes]
    yield Table("How many times as fast as by one worker:", ("Scene", "Size", *(f"{count} workers" for count in counts)), rows)


def paints(setting):
    """Yields how long a fill of the largest canvas takes beside std's, and calls on the order of elements by links beside vectors, in a
    `setting`."""
    costs = defaultdict(list)
    for _ in range(setting.runs):
        for _, (what, took) in told_by(PICTURES, "paint", FILLED):
            costs[what].append(int(took))
        for _, (what, links, vectors) in told_by(PICTURES, "order", ORDER):
            costs[f"{what}, by links"].append(int(links))
            costs[f"{what}, in vectors"].append(int(vectors))
    yield Table("The shortest of many times in each run:", ("What", "us"), [(what, spread(took, digits=0)) for what, took in costs.items()])


def desk(setting):
    """Yields how many calls a second a counter takes on a desk and in a lock, in a `setting`."""
    calls = defaultdict(list)
    for _ in range(setting.runs):
        for _, (threads, *both) in told_by(DESK, "calls", CALLS):
            calls[threads].append([int(count) for count in both])
    rows = [(threads, *(spread(own, 1e-6) for own in zip(*counts))) for threads, counts in calls.items()]
    yield Table("Million calls a second on a counter, by all threads together:", ("Threads", "on a desk", "in a `Mutex`"), rows)
