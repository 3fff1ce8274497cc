"""Scripts and films that are as large as an input may be, or larger, and are meant to take long. Each script is made for any size."""

import random

from lib.limits import MOST_FILM, MOST_INSERTED, MOST_LINES, MOST_SCRIPT, MOST_SIDE

LINE = MOST_SCRIPT // MOST_LINES
START = b"WFS1\nport 1x1\n"
END = b"end\n"
SCENE = b"".join(
    [b"0 d = device\n0 c = screen d 1\n0 s = stream 1 1 rgbx 2\n0 x = source d c s\n"]
    + [b"0 e%d = element d c\n0 set d e%d source x\n0 set d e%d srcrect 0 0 1 1\n0 set d e%d dest 0 0 1 1\n0 insert d e%d none\n"
       % (number, number, number, number, number) for number in range(MOST_INSERTED)]
)


def filled(start, line_at, size, end=END):
    """A script with as many lines of 64 bytes as there is room for, padded by spaces, and with one more comment up to the size. Each line
    is made by its number."""
    lines, number = [], 0
    room = size - len(start) - len(end) - 2
    while room - LINE >= 0 and start.count(b"\n") + number < MOST_LINES - 3:
        lines.append(line_at(number).ljust(LINE - 1) + b"\n")
        number += 1
        room -= LINE
    return start + b"".join(lines) + b"#" * (room + 1) + b"\n" + end


def rows(size):
    """Paints of whole rows, with as many digits as a line may have."""
    line = b"0 paint row 0 " + b"0a" * (4 * MOST_SIDE) + b"\n"
    count = (size - len(START) - len(END)) // len(line)
    return START + line * count + END


# Each kind of script, by the bytes that it has, and the status with which it ends in the mode film.
SCRIPTS = {
    "spaces": (lambda size: b" " * size, 5),
    "bytes 0": (lambda size: bytes(size), 5),
    "bytes at random": (lambda size: random.Random(7).randbytes(size), 5),
    "bytes at random after the header": (lambda size: b"WFS1\n" + random.Random(7).randbytes(size - 5), 5),
    "a word that fills a line": (lambda size: START + b"0 " + b"a" * (size - len(START) - 2), 5),
    "words that fill a line": (lambda size: START + b"0 stat" + b" a" * ((size - len(START) - 6) // 2), 5),
    "empty lines": (lambda size: START + b"\n" * (size - len(START)), 5),
    "a comment": (lambda size: START + b"#" * (size - len(START) - len(END) - 1) + b"\n" + END, 0),
    "lines of comments": (lambda size: filled(START, lambda number: b"#", size), 0),
    "ticks": (lambda size: filled(START, lambda number: b"0 tick", size), 0),
    "names": (lambda size: filled(START, lambda number: b"0 name_of_a%05d = stream 1 1 rgba 2" % number, size), 0),
    "names without an end": (lambda size: filled(START, lambda number: b"0 name_of_a%05d = stream 1 1 rgba 2" % number, size, b""), 5),
    f"commits of {MOST_INSERTED} elements": (lambda size: filled(START + SCENE, lambda number: b"0 commit d c", size), 0),
    f"rows of {MOST_SIDE:,} pixels": (rows, 0),
}


def frame(form):
    """A frame of the largest sides, all of whose pixels are 0."""
    head = b"F\1" + (1).to_bytes(4, "big") + (bytes(4) if form == 2 else b"") + MOST_SIDE.to_bytes(2, "big") * 2
    return head + bytes(4 * MOST_SIDE * MOST_SIDE)


def cut_film(size):
    """The largest frames, the last of which is cut."""
    whole = b"WFF2" + frame(2) * (size // (4 * MOST_SIDE * MOST_SIDE) + 1)
    return whole[:size]


def entries_film(size):
    """A film without a frame whose journal has as many entries as there is room for, all of them 0, and so as many bytes but a few."""
    count = (size - 10) // 6
    return b"WFF2J" + count.to_bytes(4, "big") + bytes(6 * count) + b"E"


# Each kind of film, by the bytes that it may have, and what `check` tells of it beside a script of one tick.
FILMS = {
    "large frames, the last one cut": (cut_film, lambda size: (9, f"bad film at {size}: rule 3")),
    "a journal without a frame": (entries_film, lambda size: (8, "bad order at entry 1")),
    "bytes 0": (lambda size: bytes(size), lambda size: (9, "bad film at 0: rule 1")),
}
# What is no script with a film, and as long as both together: without a line whose only word is `end` all of it is the script part.
ENDLESS = {"line feeds": b"\n", "spaces": b" ", "lines of a word": b"ends\n"}
SHORT = b"WFF2J" + b"\xff" * 4 + bytes(6)
