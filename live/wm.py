#!/usr/bin/env python3
"""A window manager: a ground, windows with a bar, a panel, and a pointer on pipeline 1 where there is one.

    live/wm.py [--picture FILE]

A window is raised by a press on it, moved by its bar, and closed by the mark at the bar's end; the panel has a mark for each window, which
raises it. With --picture a press of the third button on the panel writes what the port shows to FILE, as PNG. It takes the sides of port 1
from the core, and connects to `wm` in the folder that WF_DIR names.
"""

import argparse
import sys
from dataclasses import dataclass, field
from pathlib import Path

from wfclient import OK, OUTPUT, Client, Refused
from words import AGAIN, CLOSE, KEY, MOVE, PRESS, RELEASE, SHOW, word, word_of

from lib import png, tool  # noqa: E402  wfclient says where they stand

PORT, PIPE, APPS = 1, 1, range(1, 8)
# The button that asks for a picture.
THIRD = 3
BAR, PANEL, MARK, GAP, POINTER = 14, 20, 10, 4, 12
BY_ALPHA = 2
# How many windows there are, and of one app, and how many events are done before what they ask for is shown. No app keeps all to itself.
MOST_WINDOWS, MOST_OF_ONE, AT_ONCE = 12, 3, 256
COLOURS = ((200, 90, 60), (70, 150, 210), (110, 180, 90), (210, 170, 60), (160, 100, 190), (80, 180, 170), (210, 120, 150))


@dataclass
class Layer:
    """An element with its source, and the sides and the place at which it is shown."""

    element: int
    source: int
    w: int
    h: int
    x: int = 0
    y: int = 0

    def has(self, x, y):
        """Returns whether a place is in it."""
        return self.x <= x < self.x + self.w and self.y <= y < self.y + self.h


@dataclass
class Window:
    """A window of a `client`: the layer of its stream, and that of its bar, whose stream is the window manager's."""

    client: int
    stream: int
    shown: Layer
    bar: Layer
    bar_stream: int


@dataclass
class Manager:
    """What is shown on the port, from the ground up."""

    client: Client
    device: int = 0
    context: int = 0
    sides: tuple = (0, 0)
    ground: Layer = None
    panel: Layer = None
    panel_stream: int = 0
    windows: list = field(default_factory=list)
    grip: tuple = None
    has_pointer: bool = False
    picture: Path = None

    def __post_init__(self):
        client = self.client
        self.device = client.device_new().value
        # A window manager that is gone left its devices, one of which has the screen. Handles count from 1.
        for handle in range(1, self.device):
            client.device_destroy(handle)
        self.context = client.screen_context(self.device, PORT).value
        self.sides = tuple(client.port_get(PORT, side, 0).value for side in ("width", "height"))
        self.make_ground()
        self.make_panel()
        self.make_pointer()
        self.restack()
        client.activate(self.device, self.context)
        for app in APPS:
            client.tell(app, word(AGAIN))
        client.flush()

    # Streams and layers.

    def layer(self, stream, w, h, transparency="none"):
        """Makes a layer of a stream of these sides. Returns it, or None where the stream is not there, or there is no room."""
        source, element = self.client.source_new(self.device, self.context, stream), self.client.element_new(self.device, self.context)
        if source.code != OK or element.code != OK:
            return None
        layer = Layer(element.value, source.value, w, h)
        self.set(layer, "source", layer.source)
        self.set(layer, "srcrect", [0, 0, w, h])
        self.set(layer, "transparency", transparency)
        return layer

    def set(self, layer, attribute, value):
        """Sets an attribute of a layer's element."""
        value = {"none": 0, "source": BY_ALPHA}.get(value, value) if attribute == "transparency" else value
        self.client.element_set(self.device, layer.element, attribute, value)

    def place(self, layer, x, y):
        """Lets a layer stand at a place."""
        layer.x, layer.y = x, y
        self.set(layer, "dest", [x, y, layer.w, layer.h])

    def drop(self, layer):
        """Takes a layer away."""
        self.client.element_destroy(self.device, layer.element)
        self.client.source_destroy(self.device, layer.source)

    def restack(self):
        """Puts all layers above one another, and shows them."""
        below = 0
        for layer in [self.ground, *(layer for window in self.windows for layer in (window.shown, window.bar)), self.panel]:
            self.client.element_insert(self.device, layer.element, below)
            below = layer.element
        self.draw_panel()
        self.client.commit(self.device, self.context)

    def make_ground(self):
        """Makes the ground, a ramp with lines."""
        (w, h), client = self.sides, self.client
        stream = client.stream_new(w, h, "rgbx", 2).value
        client.acquire(stream)
        client.ramp(38, 70, 120, 255, 120, 60, 110, 255)
        for y in range(0, h, 6):
            client.rectangle(0, y, w, 1, 30, 50, 90, 255)
        client.post()
        self.ground = self.layer(stream, w, h)
        self.place(self.ground, 0, 0)

    def make_panel(self):
        """Makes the panel at the lower end."""
        w, h = self.sides
        self.panel_stream = self.client.stream_new(w, PANEL, "pre", 3).value
        self.panel = self.layer(self.panel_stream, w, PANEL, "source")
        self.place(self.panel, 0, h - PANEL)

    def marks(self):
        """Returns the windows by their clients, each with where its mark begins in the panel."""
        windows = sorted(self.windows, key=lambda window: (window.client, window.stream))
        return [(window, GAP + place * (2 * MARK + GAP)) for place, window in enumerate(windows)]

    def draw_panel(self):
        """Draws the panel with a mark for each window."""
        client = self.client
        client.acquire(self.panel_stream)
        client.fill(8, 10, 16, 190)
        for window, x in self.marks():
            client.rectangle(x, (PANEL - MARK) // 2, 2 * MARK, MARK, *COLOURS[window.client - 1], 255)
        client.post()

    def make_pointer(self):
        """Shows an arrow on the pipeline, which stands over all that is composed."""
        client = self.client
        self.has_pointer = client.pipe_get(PIPE, "port", 0).code == OK
        if not self.has_pointer:
            return
        stream = client.stream_new(POINTER, POINTER, "pre", 2).value
        client.acquire(stream)
        for y in range(POINTER):
            client.rectangle(0, y, min(y + 1, 2 * (POINTER - y)), 1, 255, 255, 255, 255)
        client.post()
        shown = client.display_source(PIPE, stream)
        client.pipe_set(PIPE, "srcrect", [0, 0, POINTER, POINTER])
        client.pipe_set(PIPE, "transparency", BY_ALPHA)
        client.pipe_bind_port(PIPE, PORT)
        client.pipe_bind_source(PIPE, shown, "now")
        self.point(self.sides[0] // 2, self.sides[1] // 2)
        client.commit_device()

    def point(self, x, y):
        """Lets the pointer stand at a place."""
        if self.has_pointer:
            self.client.pipe_set(PIPE, "dest", [x, y, POINTER, POINTER])
            self.client.commit_pipe(PIPE)

    # Windows.

    def open(self, app, stream):
        """Shows a stream of an app in a window, unless there are too many. What the app says of its sides is not believed: the core knows
        them."""
        of_app = sum(window.client == app for window in self.windows)
        is_shown = any(window.stream == stream for window in self.windows)
        size = self.client.size(stream)
        if is_shown or of_app >= MOST_OF_ONE or len(self.windows) >= MOST_WINDOWS or size.code != OK:
            return
        w, h = size.value >> 16, size.value & 0xFFFF
        # Where the apps have taken all streams there is no bar, and then no window.
        bar_stream = self.client.stream_new(w, BAR, "rgbx", 2)
        if bar_stream.code != OK:
            return
        bar, shown = self.layer(bar_stream.value, w, BAR), self.layer(stream, w, h)
        if bar is None or shown is None:
            self.forget(bar_stream.value, *filter(None, (bar, shown)))
            return
        self.client.acquire(bar_stream)
        self.client.fill(*(channel * 2 // 3 for channel in COLOURS[app - 1]), 255)
        self.client.rectangle(w - BAR + 3, 3, BAR - 6, BAR - 6, 240, 240, 240, 255)
        self.client.post()
        window = Window(app, stream, shown, bar, bar_stream.value)
        self.move(window, 12 + 30 * len(self.windows), 10 + BAR + 22 * len(self.windows))
        self.windows.append(window)
        self.restack()

    def move(self, window, x, y):
        """Lets the stream of a window stand at a place, with its bar above it."""
        self.place(window.shown, x, y)
        self.place(window.bar, x, y - BAR)

    def close(self, window):
        """Takes a window away."""
        self.windows.remove(window)
        self.forget(window.bar_stream, window.shown, window.bar)
        self.grip = None if self.grip and self.grip[0] is window else self.grip

    def forget(self, bar_stream, *layers):
        """Lets go of a window's layers and of the stream of its bar."""
        for layer in layers:
            self.drop(layer)
        self.client.stream_destroy(bar_stream)

    def at(self, x, y):
        """Returns the highest window at a place, or None."""
        return next((window for window in reversed(self.windows) if window.shown.has(x, y) or window.bar.has(x, y)), None)

    # What is told.

    def pressed(self, x, y, button):
        """A button of the pointer went down."""
        if button == THIRD and self.picture and self.panel.has(x, y):
            self.keep_picture()
            return
        if self.panel.has(x, y):
            window = next((window for window, at in self.marks() if at <= x < at + 2 * MARK), None)
        else:
            window = self.at(x, y)
        if window is None:
            return
        if window.bar.has(x, y) and x >= window.bar.x + window.bar.w - BAR and not self.panel.has(x, y):
            self.client.tell(window.client, word(CLOSE))
            self.close(window)
        else:
            self.windows.remove(window)
            self.windows.append(window)
            if window.bar.has(x, y):
                self.grip = (window, x - window.shown.x, y - window.shown.y)
            elif window.shown.has(x, y):
                self.client.tell(window.client, word(PRESS, x - window.shown.x, y - window.shown.y, button))
        self.restack()

    def keep_picture(self):
        """Writes what the port shows as a picture, unless it is off."""
        data = self.client.begin_port(PORT).data
        if not data:
            return
        width, height = (int.from_bytes(data[at : at + 2], "big") for at in (0, 2))
        try:
            with tool.whole(self.picture) as sink:
                sink.write(png.picture(width, height, data[4:]))
        except (OSError, tool.Refused) as fault:
            print(f"wm: {fault}", file=sys.stderr)

    def moved(self, x, y):
        """The pointer moved."""
        self.point(x, y)
        if self.grip:
            window, left, top = self.grip
            self.move(window, x - left, y - top)
            self.client.commit(self.device, self.context)

    def by_output(self, told):
        """Does what the pointer or a key asks for."""
        if told.letter == MOVE:
            self.moved(told.first, told.second)
        elif told.letter == PRESS:
            self.pressed(*told[1:])
        elif told.letter == RELEASE:
            self.grip = None
        elif told.letter == KEY and self.windows:
            self.client.tell(self.windows[-1].client, word(*told))

    def left(self, app):
        """Takes the windows of an app away that is gone."""
        for window in [window for window in self.windows if window.client == app]:
            self.close(window)
        self.restack()

    def run(self):
        """Does what is told, until the broker is gone. Of moves that came together only the last counts."""
        while True:
            events = [self.client.event()]
            while len(events) < AT_ONCE and (more := self.client.event(wait=False)) is not None:
                events.append(more)
            told = [(event, word_of(event.data)) for event in events]
            is_move = [own is not None and own.letter == MOVE for _, own in told]
            for place, (event, own) in enumerate(told):
                if event.has_left:
                    self.left(event.client)
                elif own is not None and event.client in APPS and own.letter == SHOW:
                    self.open(event.client, own.first)
                elif own is not None and event.client == OUTPUT and not (is_move[place] and any(is_move[place + 1 :])):
                    self.by_output(own)
            self.client.flush()


def main():
    """Connects, and runs."""
    words = argparse.ArgumentParser(description="A window manager: a ground, windows with a bar, a panel, and a pointer.")
    words.add_argument("--picture", type=Path, metavar="FILE", help="write what is shown, by the third button on the panel")
    asked = words.parse_args()
    try:
        Manager(Client("wm"), picture=asked.picture).run()
    except Refused as fault:
        sys.exit(f"wm: {fault}")
    except (EOFError, ConnectionError, KeyboardInterrupt):
        sys.exit(0)


if __name__ == "__main__":
    main()
