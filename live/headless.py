#!/usr/bin/env python3
"""The output without a screen: it ticks, and keeps the last frame of a port as a picture.

    live/headless.py PICTURE [--ticks N] [--hz HZ] [--port P]

After N ticks (30), HZ a second (10), it writes what the port P (1) showed last to PICTURE, as PNG, and ends.
"""

import argparse
import sys
import time
from pathlib import Path

from wfclient import Output

from lib import png  # noqa: E402  wfclient says where it stands
from lib.serving import film_frames  # noqa: E402


def last_frame(output, asked):
    """Ticks, and returns the last frame of the port that was asked for, or None where none came."""
    last, due = None, time.monotonic()
    for _ in range(asked.ticks):
        for frame in film_frames(output.shown()[1], output.last):
            last = frame if frame[0] == asked.port else last
        due += 1 / asked.hz
        time.sleep(max(0, due - time.monotonic()))
    return last


def main():
    """Does what the words say."""
    words = argparse.ArgumentParser(description="The output of the live system without a screen: keeps the last frame as a picture.")
    words.add_argument("picture", type=Path, metavar="PICTURE")
    words.add_argument("--ticks", type=int, default=30, metavar="N", help="how many ticks (30)")
    words.add_argument("--hz", type=float, default=10, metavar="HZ", help="how many of them a second (10)")
    words.add_argument("--port", type=int, default=1, metavar="P", help="whose frame is kept (1)")
    asked = words.parse_args()
    try:
        with Output() as output:
            frame = last_frame(output, asked)
    except (EOFError, OSError) as fault:
        sys.exit(f"headless: {fault}")
    if frame is None:
        sys.exit("headless: the port showed nothing")
    _, _, width, height, pixels = frame
    asked.picture.write_bytes(png.picture(width, height, pixels))


if __name__ == "__main__":
    main()
