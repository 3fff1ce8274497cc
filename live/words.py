"""What window manager, apps and output tell one another, by docs/live.md: a letter and three numbers, of 13 bytes. The core looks at none
of it, so another window manager may have other words."""

import struct
from typing import NamedTuple

FORM = struct.Struct(">c3i")
# From an app: it shows a stream of this width and height. From the output, and to the app whose window it is in: the pointer moved, a
# button went down or up, a key went down. To an app: its window was closed, or it should say again which stream it shows.
SHOW, MOVE, PRESS, RELEASE, KEY, CLOSE, AGAIN = b"w", b"m", b"b", b"r", b"k", b"c", b"s"


class Word(NamedTuple):
    """A letter and three numbers: a stream and its sides, or a place and a button, or a key."""

    letter: bytes
    first: int
    second: int
    third: int


def word(letter, first=0, second=0, third=0):
    """Returns the bytes of a `letter` and three numbers."""
    return FORM.pack(letter, first, second, third)


def word_of(data):
    """Returns what `data` tells, or None where it is no such word."""
    return Word(*FORM.unpack(data)) if len(data) == FORM.size else None
