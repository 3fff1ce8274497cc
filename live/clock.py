#!/usr/bin/env python3
"""An app: a clock, whose pixels it makes itself.

    live/clock.py [SIDE [ticks]]

It draws its face of SIDE by SIDE pixels (64) anew where the second changes, or with `ticks` by the number of the tick, as if ten of them
were a second, so that a test sees the same each time. A press changes its colour.
"""

import math
import sys
import time

from wfclient import MANAGER, OK, Client
from words import AGAIN, CLOSE, PRESS, SHOW, word, word_of

PAPERS = (b"\xf4\xf0\xe6\xff", b"\xd8\xea\xf4\xff", b"\xf4\xde\xd8\xff")
INK, RED = b"\x30\x30\x40\xff", b"\xd0\x30\x30\xff"
# The hands: how many seconds one goes round in, how long it is beside the radius, and its colour.
HANDS = ((43_200, 0.5, INK), (3_600, 0.75, INK), (60, 0.85, RED))
TICKS_A_SECOND = 10


class Clock:
    """A face of some side, with the stream that shows it."""

    def __init__(self, client, side):
        self.client = client
        self.side = side
        self.paper = 0
        self.stream = client.stream_new(side, side, "rgbx", 3).value
        self.show()

    def show(self):
        """Asks the window manager to show the stream."""
        self.client.tell(MANAGER, word(SHOW, self.stream, self.side, self.side))

    def dot(self, pixels, x, y, colour):
        """Colours a pixel, where it is inside."""
        if 0 <= x < self.side and 0 <= y < self.side:
            pixels[4 * (self.side * y + x) : 4 * (self.side * y + x) + 4] = colour

    def ray(self, pixels, part, first, last, colour):
        """Draws a line at a `part` of the circle, from one share of the radius to another."""
        middle, angle = self.side / 2, 2 * math.pi * part
        for step in range(int(first * self.side), int(last * self.side)):
            self.dot(pixels, int(middle + math.sin(angle) * step / 2), int(middle - math.cos(angle) * step / 2), colour)

    def face(self, seconds):
        """Returns the pixels of the face at so many seconds of a day."""
        pixels = bytearray(PAPERS[self.paper] * self.side**2)
        for hour in range(12):
            self.ray(pixels, hour / 12, 0.88, 0.98, INK)
        for round_in, length, colour in HANDS:
            self.ray(pixels, seconds / round_in % 1, 0, length, colour)
        return pixels

    def draw(self, seconds):
        """Draws the face, and shows it."""
        if self.client.acquire(self.stream).code == OK:
            self.client.put(0, 0, self.side, self.side, self.face(seconds))
            self.client.post()

    def hear(self):
        """Does what was told. Returns whether the face has to be drawn anew, or None where the window was closed."""
        is_new = False
        while self.client.events:
            told = word_of(self.client.events.popleft().data)
            if told and told.letter == CLOSE:
                return None
            if told and told.letter == AGAIN:
                self.show()
            if told and told.letter == PRESS:
                self.paper, is_new = (self.paper + 1) % len(PAPERS), True
        return is_new

    def run(self, by_ticks):
        """Draws, and waits for ticks, until the window is closed."""
        last, tick = None, 0
        while (is_new := self.hear()) is not None:
            now = time.localtime()
            seconds = tick // TICKS_A_SECOND if by_ticks else 3600 * now.tm_hour + 60 * now.tm_min + now.tm_sec
            if is_new or seconds != last:
                self.draw(seconds)
            last = seconds
            tick = self.client.wait().value


def main(words):
    """Does what the words say."""
    try:
        with Client("app") as client:
            Clock(client, int(words[0]) if words else 64).run("ticks" in words)
    except (EOFError, ConnectionError, KeyboardInterrupt):
        sys.exit(0)


if __name__ == "__main__":
    main(sys.argv[1:])
