"""Whole live systems that are tried: a desk with two apps, hostile apps, and a window of X11. Each is a broker with a core in a folder of
its own, and what its core read is played once more."""

import contextlib
import ctypes
import os
import shutil
import signal
import subprocess
import sys
from typing import NamedTuple

from lib import png
from lib.crates import TOP
from lib.limits import MOST_SIDE
from lib.live import APPS, OUTPUT, SIZE, TELL, WAIT, body
from lib.live_hostile import HOSTILE, Flood, is_soon
from lib.live_script import ByHand, Played
from lib.living import LIVE, SANITIZED, SECONDS, NoWay, System, built, compiled, core_words, options_of
from lib.player import Show, declared
from lib.serving import Live, film_frames
from lib.wire import NAMED

sys.path.insert(0, str(LIVE))

from wfclient import Client, Output, given  # noqa: E402
from words import MOVE, PRESS, RELEASE, SHOW, word  # noqa: E402

SIDES, PIPES = (160, 120), 1
# A window manager in C that asks for a picture, and an output in C that pastes what it reads.
LOOKING, PASTING = TOP / "tools/lib/looking.c", TOP / "tools/lib/pasting.c"
COMMIT, FILL = NAMED["Commit"].number, NAMED["Fill"].number
MANAGER, CLOCK, WAVES = 0, *list(APPS)[:2]
TICKS = 60
# The sum over the pixels of the last frame after so many ticks, after the window of the waves was moved and the pointer with it, once the
# app of the waves was killed, and once another window manager has the screen. All of them were looked at.
SUMS = {"ticks": 10_379_662, "moved": 10_595_459, "killed": 10_284_779, "again": 8_030_192}
# The window of the waves, where its bar is gripped and let go, and a place on the panel.
WINDOW, GRIP, DROP, PANEL = (64, 40), (50, 40), (90, 70), (80, 115)
# Scripts of the examples that are played live.
SCRIPTS = ("clients", "desk", "offscreen", "ports")
# The sides of the screen of a test, and how many bits a pixel has.
ROOT = "320x240x24"
# A window over that of a test.
COVER = ("xlogo", "-geometry", "160x120+0+0")


class Programs(NamedTuple):
    """The programs that are tried."""

    broker: str
    waves: str
    kiosk: str
    looking: str
    pasting: str
    view: str


def programs(folder):
    """Returns the programs, compiled into a `folder` for the sanitizers. That of X11 is none where its headers are missing."""
    own = [built(name, folder, *SANITIZED) for name in ("wfbroker", "waves", "kiosk")]
    own += [compiled(source, folder, *SANITIZED) for source in (LOOKING, PASTING)]
    with contextlib.suppress(NoWay):
        return Programs(*own, built("wfview", folder, *SANITIZED, "-lX11", "-lXext"))
    return Programs(*own, None)


def fresh(folder, name):
    """Returns a new folder of a name."""
    own = folder / name
    own.mkdir()
    return own


def replays(system, frames):
    """Plays once more what the core of a system read, with a file for its pictures. Yields where its answers or, where they are given, its
    `frames` are others."""
    again = system.folder / "again"
    word_of_sink, _, *more = system.sink
    words = [*core_words(), *options_of(system.ports, system.pipes, word_of_sink, again, *more)]
    data = system.recorded.input.read_bytes()
    done = subprocess.run(words, input=data, capture_output=True, timeout=SECONDS, check=False)
    if done.returncode:
        yield f"played once more the core ends with {done.returncode}: {done.stderr.decode(errors='replace').strip()}"
    if done.stdout != system.recorded.output.read_bytes():
        yield f"played once more, {len(data)} bytes of input have other answers"
    if frames is not None and again.read_bytes() != frames:
        yield f"played once more, {len(data)} bytes of input have other frames"


class Desk:
    """A system with the window manager in Python, the clock and the waves, which is ticked as soon as both apps wait for that."""

    def __init__(self, folder, own):
        self.system = System(folder, own.broker, [SIDES], PIPES, is_recorded=True)
        self.counts = self.system.recorded
        self.picture = folder / "shown.png"
        self.manager = self.system.start(LIVE / "wm.py", "--picture", self.picture)
        self.counts.wait_for(MANAGER, COMMIT, 1)
        self.clock = self.system.start(LIVE / "clock.py", 48, "ticks")
        self.counts.wait_for(CLOCK, WAIT, 1)
        self.counts.wait_for(MANAGER, COMMIT, 2)
        self.waves = self.system.start(own.waves, self.system.place, *WINDOW, stderr=subprocess.DEVNULL)
        self.counts.wait_for(WAVES, WAIT, 1)
        self.counts.wait_for(MANAGER, COMMIT, 3)
        self.output = Output(self.system.place)
        self.frames = bytearray()
        self.pixels = b""
        self.ticks = 0
        self.waiting = {CLOCK, WAVES}

    def tick(self):
        """Ticks, and waits until the apps have drawn again. Returns the sum over the pixels of what is shown, which stays where no frame
        comes."""
        self.counts.read()
        before = {app: self.counts.counts[app, WAIT] for app in self.waiting}
        self.ticks, data = self.output.shown()
        self.frames += data
        for frame in film_frames(data, self.output.last):
            self.pixels = frame[-1]
        for app, count in before.items():
            self.counts.wait_for(app, WAIT, count + 1)
        return sum(self.pixels)

    def commits(self, does):
        """Does something after which the window manager commits, and waits for that."""
        self.counts.read()
        before = self.counts.counts[MANAGER, COMMIT]
        does()
        self.counts.wait_for(MANAGER, COMMIT, before + 1)

    def point(self, letter, place, button=1):
        """Tells the window manager of the pointer."""
        self.output.tell(MANAGER, word(letter, *place, button))
        self.output.sync()

    def close(self):
        """Ends all. Returns the status of the broker."""
        self.output.close()
        return self.system.close()


def tells(what, came):
    """Yields a line where a sum is not the stored one."""
    if came != SUMS[what]:
        yield f"desk: {what}: the sum over the frame is {came}, and not {SUMS[what]}"


def dragged(desk):
    """Drags the window of the waves by its bar. Returns the sum over the next frame."""
    desk.commits(lambda: desk.point(PRESS, GRIP))
    desk.commits(lambda: desk.point(MOVE, DROP))
    desk.point(RELEASE, DROP)
    return desk.tick()


def pictured(desk):
    """Asks the window manager for a picture. Yields where it is another one than what is shown."""
    desk.point(PRESS, PANEL, 3)
    if not is_soon(desk.picture.exists):
        yield "desk: the window manager writes no picture"
    elif png.read(desk.picture.read_bytes(), MOST_SIDE) != (*SIDES, desk.pixels):
        yield "desk: the picture that the window manager writes is another one than what is shown"


def killed(desk):
    """Kills the waves. Returns the sum over the next frame."""
    desk.waiting = {CLOCK}
    desk.commits(lambda: desk.waves.kill())
    return desk.tick()


def stopped(desk):
    """Stops the clock for some ticks, which go on, and then lets it go on. Yields what is wrong."""
    desk.clock.send_signal(signal.SIGSTOP)
    desk.waiting = set()
    before = desk.ticks
    for _ in range(5):
        desk.tick()
    if desk.ticks != before + 5:
        yield "desk: beside a stopped app the ticks don't go on"
    desk.counts.read()
    waits = desk.counts.counts[CLOCK, WAIT]
    desk.clock.send_signal(signal.SIGCONT)
    desk.counts.wait_for(CLOCK, WAIT, waits + 1)
    desk.waiting = {CLOCK}


def managed_again(desk, own):
    """Kills the window manager, whose place the one in C takes. The clock hears at the next tick that it is asked for, and then has the
    screen. Returns the sum over the next frame."""
    desk.manager.kill()
    desk.counts.read()
    told = desk.counts.counts[MANAGER, TELL]
    desk.system.start(own.kiosk, desk.system.place)
    desk.counts.wait_for(MANAGER, TELL, told + len(APPS))
    desk.commits(desk.tick)
    return desk.tick()


def tries_desk(folder, own):
    """Runs a desk. Yields what is otherwise than it should be."""
    desk = Desk(fresh(folder, "desk"), own)
    try:
        for _ in range(TICKS):
            last = desk.tick()
        yield from tells("ticks", last)
        yield from tells("moved", dragged(desk))
        yield from pictured(desk)
        yield from tells("killed", killed(desk))
        yield from stopped(desk)
        yield from tells("again", managed_again(desk, own))
    finally:
        status = desk.close()
    if status:
        yield f"desk: the broker ends with {status}"
    yield from (f"desk: {line}" for line in replays(desk.system, bytes(desk.frames)))


def shows(system):
    """Returns whether a window manager still shows what a good app asks for: it then asks the core for the sides."""
    system.recorded.read()
    asked = system.recorded.counts[MANAGER, SIZE]
    with Client("app", system.place) as good:
        stream = good.stream_new(8, 8, "rgbx", 2).value
        good.tell(MANAGER, word(SHOW, stream, 8, 8))
        good.sync()
        system.recorded.wait_for(MANAGER, SIZE, asked + 1)
    return True


def tries_hostile(folder, own):
    """Runs a system for hostile apps, beside each of the window managers. Yields what is otherwise than it should be."""
    for name in ("wm", "kiosk"):
        place = fresh(folder, f"hostile-{name}")
        yield from hostile(place, own, [LIVE / "wm.py"] if name == "wm" else [own.kiosk, place / "wf"])


def hostile(folder, own, manager):
    """Runs a system for hostile apps in a folder, with a window manager. Yields what is otherwise than it should be."""
    system = System(folder, own.broker, [SIDES], PIPES, is_recorded=True)
    managing = system.start(*manager)
    system.recorded.wait_for(MANAGER, COMMIT, 1)
    try:
        for cases in HOSTILE:
            for what, holds in cases(system.place):
                if not holds:
                    yield f"hostile: it does not hold that {what}"
                elif "at most" in what:
                    print(f"hostile: {what}")
        if managing.poll() is not None or not shows(system):
            yield f"hostile: the window manager {manager[0].name} shows nothing any more"
        told = system.notes.read_text(encoding="utf-8")
        if "it does not read" not in told or "a length is wrong" not in told:
            yield f"hostile: the broker tells {told}"
        # The end comes while frames are on their way, and the last that the core reads is whole.
        flood = Flood(system.place, True)
        flood.start()
        is_soon(lambda: system.recorded.read() or system.recorded.counts[1, FILL] > 1000)
    finally:
        status = system.close()
    flood.end()
    if status:
        yield f"hostile: the broker ends with {status}"
    yield from (f"hostile: {line}" for line in replays(system, None))


def tries_scripts(folder, own):
    """Plays some scripts as the window manager. Yields where the last frame of port 1 is another one than in the script's film."""
    for name in SCRIPTS:
        text = (TOP / f"examples/{name}.wfs").read_text(encoding="utf-8")
        ports, pipes = declared([line.partition("#")[0].split() for line in text.split("\n")])
        with System(fresh(folder, f"script-{name}"), own.broker, [modes[0] for modes in ports], pipes) as system:
            with Client("wm", system.place) as client, Output(system.place) as output:
                ticks = ByHand(client, output)
                Played(client, ticks.tick, lambda *_: None).play(text)
        came = [frame for frame in film_frames(bytes(ticks.frames)) if frame[0] == 1][-1]
        wanted = [frame for frame in Show(text).frames if frame.port == 1][-1]
        if came[2:] != (wanted.width, wanted.height, wanted.pixels):
            yield f"examples/{name}.wfs: played live the last frame is another one"


def demo_of(path, seconds, more):
    """Runs the demonstration for so many seconds, with `more` words. Returns what is wrong with its picture, or nothing."""
    shown = TOP / "docs/pictures/first-mode.png"
    words = [LIVE / "demo", "--size", "160x120", "--seconds", seconds, "--picture", path, shown, *more]
    done = subprocess.run(list(map(str, words)), capture_output=True, text=True, timeout=2 * SECONDS, check=False)
    if done.returncode:
        return f"status {done.returncode}: {done.stderr}"
    width, height, pixels = png.read(path.read_bytes(), MOST_SIDE)
    colours = {pixels[at : at + 4] for at in range(0, len(pixels), 4)}
    return "" if (width, height) == SIDES and len(colours) >= 10 else f"the picture has {width} by {height} pixels, {len(colours)} colours"


def tries_demo(folder, own):
    """Runs the demonstration without a screen, by each window manager. Yields where its picture is not one."""
    del own
    for words in ([], ["--kiosk"]):
        # On a machine that has much to do the apps need more time to show something.
        for seconds in (1, 5, 15):
            wrong = demo_of(folder / "demo.png", seconds, words)
            if not wrong:
                break
        else:
            yield f"demo {' '.join(words)}: {wrong}"


# A window of X11.


def screen_of(data, width, height):
    """Returns the pixels at the upper left of a picture as `xwd` writes it, with the alpha of a frame."""
    head = [int.from_bytes(data[at : at + 4], "big") for at in range(0, 100, 4)]
    size, little, bits, stride, colours = head[0], head[7] == 0, head[11], head[12], head[19]
    if bits != 32 or not little:
        raise NoWay(f"xwd writes {bits} bits a pixel")
    pixels, at = bytearray(), size + 12 * colours
    for y in range(height):
        row = bytearray(data[at + stride * y : at + stride * y + 4 * width])
        row[0::4], row[2::4], row[3::4] = row[2::4], row[0::4], b"\xff" * width
        pixels += row
    return bytes(pixels)


# A still picture: device 1, context 2, a stream 3 that is painted, an element 4 and its source 5.
STILL = (
    ("DeviceNew",),
    ("ScreenContext", 1, 1),
    ("StreamNew", *SIDES, "rgbx", 2),
    ("Acquire", 3),
    ("Ramp", 250, 40, 10, 255, 10, 60, 240, 255),
    ("Rectangle", 20, 30, 50, 40, 1, 200, 3, 255),
    ("Post",),
    ("ElementNew", 1, 2),
    ("SourceNew", 1, 2, 3),
    ("ElementSet", 1, 4, "source", 5),
    ("ElementSet", 1, 4, "srcrect", [0, 0, *SIDES]),
    ("ElementSet", 1, 4, "dest", [0, 0, *SIDES]),
    ("ElementInsert", 1, 4, 0),
    ("Commit", 1, 2),
    ("Activate", 1, 2),
)


def still(place):
    """Returns a window manager that shows a still picture."""
    client = Client("wm", place)
    for name, *values in STILL:
        client.say(name, *values)
    client.sync()
    return client


# The same with another rectangle, which is another picture in some of its rows: the number of the first one, and how many.
CHANGED = (("Acquire", 3), ("Ramp", 250, 40, 10, 255, 10, 60, 240, 255), ("Rectangle", 20, 30, 50, 40, 90, 3, 200, 255), ("Post",))
ROWS = (30, 40)


def change(client):
    """Changes the still picture."""
    for name, *values in CHANGED:
        client.say(name, *values)
    client.sync()


def still_pixels(*more):
    """Returns the pixels of that picture, by the model, after `more` messages."""
    shown = []
    live = Live([SIDES], PIPES, lambda *picture: shown.append(picture[4]))
    for name, *values in (*STILL, *more):
        live.answers(MANAGER, body(name, *map(given, values)))
    live.answers(OUTPUT, body("tick"))
    return shown[-1]


def warped(display, x, y):
    """Lets the pointer of a display stand at a place, by the library of X11 itself."""
    x11 = ctypes.CDLL("libX11.so.6")
    x11.XOpenDisplay.restype = ctypes.c_void_p
    x11.XDefaultRootWindow.restype, x11.XDefaultRootWindow.argtypes = ctypes.c_ulong, [ctypes.c_void_p]
    x11.XWarpPointer.argtypes = [ctypes.c_void_p, ctypes.c_ulong, ctypes.c_ulong, *[ctypes.c_int] * 6]
    opened = x11.XOpenDisplay(display.encode())
    x11.XWarpPointer(opened, 0, x11.XDefaultRootWindow(ctypes.c_void_p(opened)), 0, 0, 0, 0, x, y)
    x11.XSync.argtypes = [ctypes.c_void_p, ctypes.c_int]
    x11.XSync(opened, 0)
    x11.XCloseDisplay.argtypes = [ctypes.c_void_p]
    x11.XCloseDisplay(opened)


def picture_of(around):
    """Returns what `xwd` says of the screen that the variables `around` name."""
    return subprocess.run(["xwd", "-root", "-silent"], env=around, capture_output=True, timeout=SECONDS, check=False)


def view(folder, own, around):
    """Shows a still picture in a window, and moves the pointer. Yields what is wrong."""
    with System(folder, own.broker, [SIDES], PIPES) as system:
        client, first, then = still(system.place), still_pixels(), still_pixels(*CHANGED)
        shown = subprocess.Popen([own.view, system.place, "20"], env=around, stdout=subprocess.DEVNULL)
        system.parts.append(shown)

        def is_shown(wanted):
            return screen_of(picture_of(around).stdout, *SIDES) == wanted

        if not is_soon(lambda: is_shown(first)):
            yield "the window shows something else than the frame"
        change(client)
        if not is_soon(lambda: is_shown(then)):
            yield "the window shows something else once some rows changed"
        # No frame comes any more, and the window shows the last one again where another window was.
        if shutil.which(COVER[0]):
            with subprocess.Popen(COVER, env=around, stdout=subprocess.DEVNULL, stderr=subprocess.DEVNULL) as other:
                is_covered = is_soon(lambda: not is_shown(then))
                other.terminate()
            if not is_covered or not is_soon(lambda: is_shown(then)):
                yield "the window doesn't show the frame again where another one was"
        warped(around["DISPLAY"], 33, 44)
        if not is_soon(lambda: (event := client.event(wait=False)) and event[:2] == (OUTPUT, word(MOVE, 33, 44, 0))):
            yield "the window manager is not told where the pointer is"
        client.close()


def tries_view(folder, own):
    """Shows a window on a display without a screen, with memory that is shared and without. Yields what is otherwise than it should be."""
    missing = [name for name in ("Xvfb", "xwd") if not shutil.which(name)]
    if missing or not own.view:
        print(f"the window of X11: {', '.join(missing) or 'a header'} is not there: passed over")
        return
    for place, words in enumerate(([], ["-extension", "MIT-SHM"])):
        # The server takes a display that is free, and tells its number. Without -noreset it begins anew whenever its last client leaves,
        # which would be `xwd` where that is faster than the window.
        words = ["Xvfb", "-displayfd", "1", "-noreset", "-screen", "0", ROOT, *words]
        with subprocess.Popen(words, stdout=subprocess.PIPE, stderr=subprocess.DEVNULL, text=True) as server:
            try:
                around = os.environ | {"DISPLAY": f":{server.stdout.readline().strip()}"}
                yield from (f"view {words[-1]}: {line}" for line in view(fresh(folder, f"view{place}"), own, around))
            finally:
                server.terminate()
