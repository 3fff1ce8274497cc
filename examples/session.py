#!/usr/bin/env python3
"""Shows a window by a session: draws it, composes it over a background, and writes what the port shows as a PNG picture.

    examples/session.py PICTURE [COMMAND ..]

COMMAND is a program with its words that serves a session on its standard input and output. Without it that is `./wfplay session` of this
checkout; `tools/serve-session` is the model of the tools.
"""

import sys
from pathlib import Path

TOP = Path(__file__).resolve().parent.parent
sys.path.insert(0, str(TOP / "tools"))

from lib import png  # noqa: E402
from lib.wfclient import Client  # noqa: E402

WIDTH, HEIGHT = 64, 48
# Where the window stands, and how large it is.
PLACE = (12, 10, 36, 26)
# The transparency by which the alphas of the window's own pixels apply.
SOURCE = 2


def draw_window(client, width, height):
    """Draws a window with a title into a stream of its own. Returns the stream."""
    stream = client.stream_new(width, height, "rgba", 3).value
    client.acquire(stream)
    client.ramp(250, 240, 220, 255, 200, 210, 240, 160)
    client.rectangle(0, 0, width, 5, 60, 90, 150, 255)
    client.rectangle(width - 4, 1, 3, 3, 240, 240, 240, 255)
    client.post()
    return stream


def put_window(client, device, context, stream):
    """Puts an element that shows a stream into the scene of a context."""
    element = client.element_new(device, context).value
    client.element_set(device, element, "source", client.source_new(device, context, stream).value)
    client.element_set(device, element, "srcrect", [0, 0, *PLACE[2:]])
    client.element_set(device, element, "dest", PLACE)
    client.element_set(device, element, "transparency", SOURCE)
    client.element_insert(device, element, below=0)


def shown(command):
    """Returns what the port shows of the window."""
    with Client(command, [(WIDTH, HEIGHT)], raises=True) as client:
        device = client.device_new().value
        context = client.screen_context(device, port=1).value
        client.context_set(device, context, "background", [30, 60, 60, 255])
        put_window(client, device, context, draw_window(client, *PLACE[2:]))
        client.commit(device, context)
        client.begin_context(device, context)
        return client.show(1)


def main(words):
    """Does what the words say."""
    if not words:
        sys.exit("usage: examples/session.py PICTURE [COMMAND ..]")
    picture = shown(words[1:] or [TOP / "wfplay", "session"])
    Path(words[0]).write_bytes(png.picture(picture.width, picture.height, picture.pixels))


if __name__ == "__main__":
    main(sys.argv[1:])
