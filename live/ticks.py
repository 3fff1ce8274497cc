#!/usr/bin/env python3
"""The output where the core itself writes the pictures, as with --fb: it ticks, and reads no frames.

    live/ticks.py DIR [HZ]

DIR has the sockets of the broker. It ticks HZ times a second at most (60), and ends where the broker does. A core with --frames needs
another output, which reads them.
"""

import sys
import time

from wfclient import Client


def tick(client, hz):
    """Ticks for ever. What comes late is not made up for."""
    due = time.monotonic()
    while True:
        client.tick().awaited()
        client.events.clear()
        due = max(due + 1 / hz, time.monotonic())
        time.sleep(max(0, due - time.monotonic()))


def main():
    """Does what the words say."""
    hz = float(sys.argv[2]) if len(sys.argv) == 3 and sys.argv[2].replace(".", "", 1).isdigit() else 60
    if len(sys.argv) not in (2, 3) or hz <= 0:
        print("usage: ticks.py DIR [HZ]", file=sys.stderr)
        sys.exit(2)
    try:
        with Client("out", sys.argv[1]) as client:
            tick(client, hz)
    except (EOFError, ConnectionError, KeyboardInterrupt):
        pass
    except OSError as fault:
        sys.exit(f"ticks: {fault}")


if __name__ == "__main__":
    main()
