#!/usr/bin/env python3
"""An app: shows PNG pictures, one after the other.

    live/gallery.py PICTURE .. [--ticks N]

The window is as large as the largest of them. It goes on after N ticks (120), and by a press.
"""

import argparse
import sys
from pathlib import Path

from wfclient import MANAGER, OK, Client
from words import AGAIN, CLOSE, PRESS, SHOW, word, word_of

from lib import png  # noqa: E402  wfclient says where it stands
from lib.limits import MOST_SIDE  # noqa: E402

GROUND = (24, 26, 32, 255)


class Gallery:
    """Pictures, each with its sides and its pixels, and the stream that shows them."""

    def __init__(self, client, pictures):
        self.client = client
        self.pictures = pictures
        self.sides = [max(picture[side] for picture in pictures) for side in (0, 1)]
        self.stream = client.stream_new(*self.sides, "rgba", 3).value
        self.tell()

    def tell(self):
        """Asks the window manager to show the stream."""
        self.client.tell(MANAGER, word(SHOW, self.stream, *self.sides))

    def draw(self, place):
        """Shows the picture of a place, in the middle of the ground."""
        width, height, pixels = self.pictures[place % len(self.pictures)]
        if self.client.acquire(self.stream).code == OK:
            self.client.fill(*GROUND)
            self.client.put((self.sides[0] - width) // 2, (self.sides[1] - height) // 2, width, height, pixels)
            self.client.post()

    def run(self, ticks):
        """Shows one picture after the other, until the window is closed."""
        place, left = 0, 0
        while True:
            if left == 0:
                self.draw(place)
                place, left = place + 1, ticks
            self.client.wait().awaited()
            left -= 1
            while self.client.events:
                told = word_of(self.client.events.popleft().data)
                if told and told.letter == CLOSE:
                    return
                if told and told.letter == AGAIN:
                    self.tell()
                left = 0 if told and told.letter == PRESS else left


def main():
    """Does what the words say."""
    words = argparse.ArgumentParser(description="Shows PNG pictures in a window of the live system.")
    words.add_argument("pictures", nargs="+", type=Path, metavar="PICTURE")
    words.add_argument("--ticks", type=int, default=120, metavar="N", help="after how many ticks the next one comes (120)")
    asked = words.parse_args()
    try:
        pictures = [png.read(path.read_bytes(), MOST_SIDE) for path in asked.pictures]
        with Client("app") as client:
            Gallery(client, pictures).run(max(1, asked.ticks))
    except (png.NoPng, OSError) as fault:
        sys.exit(f"gallery: {fault}")
    except (EOFError, KeyboardInterrupt):
        sys.exit(0)


if __name__ == "__main__":
    main()
