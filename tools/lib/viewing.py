"""What tools that show a film need beside the display: the frames of one port, what keys do, and a script that is played anew when it
changes."""

import subprocess
import sys
import tempfile
import zlib
from pathlib import Path
from typing import NamedTuple

from lib.film import Film
from lib.limits import MOST_PORTS
from lib.mistakes import fault_of, told
from lib.tool import Refused

TOOLS = Path(__file__).resolve().parent.parent
RATE, MOST_RATE = 10, 1000
ZOOM, MOST_ZOOM = 2, 16
# Quick packing, which the frames of a film come back from.
LEVEL = 1


class View(NamedTuple):
    """A frame that is kept to be shown: its tick, its sides, and its pixels, packed."""

    tick: int
    width: int
    height: int
    packed: bytes

    def pixels(self):
        """Returns the pixels, four bytes each."""
        return zlib.decompress(self.packed)

    def ppm(self):
        """Returns the picture as a PPM file, which has no alpha: a port's frame is opaque."""
        pixels, colours = self.pixels(), bytearray(3 * self.width * self.height)
        for channel in range(3):
            colours[channel::3] = pixels[channel::4]
        return b"P6 %d %d 255\n" % (self.width, self.height) + bytes(colours)


def views_of(source, port=None):
    """Returns a port and its frames, of a film from any source: of this port, or else of the first that shows one. A film without such a
    frame is refused, and what is no film too."""
    film, views, alike = Film(source), [], {}
    for frame in film.frames():
        port = port or frame.port
        if frame.port == port:
            packed = zlib.compress(frame.pixels, LEVEL)
            # Pictures that come again stand once.
            views.append(View(frame.tick, frame.width, frame.height, alike.setdefault(packed, packed)))
    for _ in film.entries():
        pass
    if not views:
        raise Refused(f"the film has no frame of port {port}" if port else "the film has no frame")
    return port, views


class Playing:
    """Where a show of frames is, and what keys change: it runs over and over until it is stopped."""

    def __init__(self, port, views, zoom=ZOOM):
        self.port, self.views = port, views
        self.zoom = zoom
        self.at = 0
        self.runs = True
        self.is_over = False

    @property
    def view(self):
        """Returns the frame that is shown."""
        return self.views[self.at]

    def title(self):
        """Returns what the show says of itself."""
        view, last = self.view, self.views[-1]
        state = "" if self.runs else ", stopped"
        return f"port {self.port}, tick {view.tick} of {last.tick}, {view.width} by {view.height}, {self.zoom} times{state}"

    def take(self, port, views):
        """Shows other frames, from the same place on where they have it."""
        self.port, self.views = port, views
        self.at = min(self.at, len(views) - 1)

    def go(self, place):
        """Stops at a frame."""
        self.runs = False
        self.at = max(0, min(len(self.views) - 1, place))

    def step(self):
        """Goes on by a frame where the show runs. Returns whether it does."""
        if self.runs:
            self.at = (self.at + 1) % len(self.views)
        return self.runs

    def magnify(self, by):
        """Makes each pixel larger or smaller."""
        self.zoom = max(1, min(MOST_ZOOM, self.zoom + by))

    def press(self, key):
        """Does what a key says, by its name in X. Returns whether it says something."""
        deeds = {
            "space": lambda: setattr(self, "runs", not self.runs),
            "Left": lambda: self.go(self.at - 1),
            "Right": lambda: self.go(self.at + 1),
            "Home": lambda: self.go(0),
            "End": lambda: self.go(len(self.views) - 1),
            "plus": lambda: self.magnify(1),
            "minus": lambda: self.magnify(-1),
            "q": lambda: setattr(self, "is_over", True),
        }
        deed = deeds.get({"KP_Add": "plus", "KP_Subtract": "minus", "equal": "plus", "Escape": "q"}.get(key, key))
        if deed:
            deed()
        return deed is not None


class Watch:
    """A script that is played by `tools/play` each time when its file is another one than before."""

    def __init__(self, script, words=()):
        self.script = script
        self.words = list(words)
        self.seen = None
        self.process = None
        self.folder = tempfile.TemporaryDirectory()
        self.film = Path(self.folder.name) / "film"

    def mark(self):
        """Returns what tells whether the file is another one, or nothing where it is not there."""
        try:
            stat = self.script.stat()
        except OSError:
            return None
        return stat.st_mtime_ns, stat.st_size, stat.st_ino

    def look(self):
        """Begins a play where the file is another one, and stops one that is under way. Where a play has ended, returns its film, and what
        went wrong in words where there is none; else nothing."""
        mark = self.mark()
        if mark and mark != self.seen:
            self.seen = mark
            self.stop()
            words = [sys.executable, str(TOOLS / "play"), *self.words, str(self.script), str(self.film)]
            self.process = subprocess.Popen(words, stdout=subprocess.DEVNULL, stderr=subprocess.PIPE)
        if self.process is None or self.process.poll() is None:
            return None
        status, notes = self.process.returncode, self.process.stderr.read().decode("utf-8", "replace")
        self.process.stderr.close()
        self.process = None
        return (self.film.read_bytes(), "") if status == 0 else (b"", self.fault(notes))

    def fault(self, notes):
        """Returns why no film came, in words: the script's first fault where it has one."""
        try:
            fault = fault_of(self.script.read_bytes())
        except (OSError, Refused):
            fault = None
        return "\n".join(told(fault)) if fault else notes.strip()

    def stop(self):
        """Stops a play that is under way."""
        if self.process:
            self.process.terminate()
            self.process.wait()
            self.process.stderr.close()
            self.process = None

    def close(self):
        """Stops what is under way and removes its film."""
        self.stop()
        self.folder.cleanup()


def add_words(reader):
    """Adds to a reader the words that tools which show a film share."""
    reader.add_argument("--port", metavar="N", type=number(MOST_PORTS), help="the port that is shown, else the first that shows a frame")
    reader.add_argument("--rate", metavar="N", type=number(MOST_RATE), default=RATE, help=f"frames a second, {RATE} without it")


def number(most):
    """Returns a reader of a word that is a number from 1 to the most."""

    def read(word):
        if not word.isdecimal() or not 1 <= int(word) <= most:
            raise ValueError(word)
        return int(word)

    return read
