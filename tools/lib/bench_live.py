"""Measures what the live core costs beside films that the player makes of the same scenes, and beside a copy, for tools/bench."""

import os
import subprocess
import tempfile
import time

from lib.bench_messages import FILM, MILLION, Pair, beside, times
from lib.live import frame
from lib.measuring import piece, processor_seconds, ratios
from lib.memory import Memory, compiler
from lib.program import SERVE
from lib.tables import Left, Table, spread
from lib.tool import Refused

WIDTH, HEIGHT = 800, 480
SIDES = f"{WIDTH}x{HEIGHT}"
CALLS, TICKS, UPLOADS = 16000, 400, 40
PIXELS = bytes(range(256)) * (WIDTH * HEIGHT * 4 // 256)
CORE = [SERVE, "--port", SIDES, "--frames", "/dev/null"]
PORT = f"WFS1\nport {SIDES}\n".encode("ascii")
# One window over the whole screen, as a script makes it and as a window manager does.
SCRIPT = (
    f"WFS1\nport {SIDES}\n0 s = stream {WIDTH} {HEIGHT} rgbx 2\n0 d = device\n0 c = screen d 1\n0 x = source d c s\n"
    f"0 e = element d c\n0 set d e source x\n0 set d e srcrect 0 0 {WIDTH} {HEIGHT}\n0 set d e dest 0 0 {WIDTH} {HEIGHT}\n"
    "0 insert d e none\n0 frame s fill 200 100 50 255\n0 commit d c\n0 activate d c\n"
).encode("ascii")
STREAM, DEVICE, CONTEXT, SOURCE, ELEMENT = range(1, 6)
# Two ticks of which each has another picture, since the window stands one pixel to the right and then where it stood.
PLACES = (1, 0)
MOVES = "".join(f"0 set d e dest {x} 0 {WIDTH} {HEIGHT}\n0 commit d c\n0 tick\n" for x in PLACES).encode("ascii")
# A pointer on a pipeline, and its places in turn.
POINTER, POINTED, SHOWN = 16, 6, 7
POINTS = ((100, 100), (104, 103))
PIECE = 1 << 16


def scene():
    """Returns the messages that make the window."""
    size = (WIDTH, HEIGHT)
    made = [("StreamNew", *size, "rgbx", 2), ("DeviceNew",), ("ScreenContext", DEVICE, 1), ("SourceNew", DEVICE, CONTEXT, STREAM),
            ("ElementNew", DEVICE, CONTEXT), ("ElementSet", DEVICE, ELEMENT, "source", SOURCE),
            ("ElementSet", DEVICE, ELEMENT, "srcrect", [0, 0, *size]), ("ElementSet", DEVICE, ELEMENT, "dest", [0, 0, *size]),
            ("ElementInsert", DEVICE, ELEMENT, 0), ("Acquire", STREAM), ("Fill", 200, 100, 50, 255), ("Post",),
            ("Commit", DEVICE, CONTEXT), ("Activate", DEVICE, CONTEXT)]
    return b"".join(frame(0, *values) for values in made)


def moves():
    """Returns the messages of two ticks of which each has another picture."""
    then = frame(0, "Commit", DEVICE, CONTEXT) + frame(8, "tick")
    return b"".join(frame(0, "ElementSet", DEVICE, ELEMENT, "dest", [x, 0, WIDTH, HEIGHT]) + then for x in PLACES)


def pointer():
    """Returns the messages that make a window and a pointer over it, and show them."""
    size = (POINTER, POINTER)
    made = [("StreamNew", *size, "rgba", 2), ("Acquire", POINTED), ("Fill", 255, 255, 255, 255), ("Post",), ("DisplaySource", 1, POINTED),
            ("PipeSet", 1, "srcrect", [0, 0, *size]), ("PipeSet", 1, "dest", [*POINTS[-1], *size]), ("PipeBindPort", 1, 1),
            ("PipeBindSource", 1, SHOWN, "now"), ("CommitDevice",)]
    return scene() + b"".join(frame(0, *values) for values in made) + frame(8, "tick")


def points():
    """Returns the messages of two ticks before each of which the pointer moved."""
    then = frame(0, "CommitPipe", 1) + frame(8, "tick")
    return b"".join(frame(0, "PipeSet", 1, "dest", [*place, POINTER, POINTER]) + then for place in POINTS)


def piped(words, data):
    """Returns the processor seconds of a run of `words` on the bytes `data`, those of who reads the pipe that its pictures go into, and how
    many bytes came. The pipe is the core's if `words` begin with the core, and else the program's standard output."""
    read, write = os.pipe()
    is_core = words[0] == SERVE
    own = [str(word) for word in (*words, *(["--frames", f"/dev/fd/{write}"] if is_core else []))]
    with tempfile.TemporaryFile() as source:
        source.write(data)
        source.seek(0)
        output = subprocess.DEVNULL if is_core else write
        running = subprocess.Popen(own, stdin=source, stdout=output, stderr=subprocess.DEVNULL, pass_fds=[write] if is_core else [])
    os.close(write)
    start, count = time.process_time(), 0
    while came := os.read(read, PIECE):
        count += len(came)
    took = time.process_time() - start
    os.close(read)
    _, running.returncode, used = os.wait4(running.pid, 0)
    if running.returncode:
        raise Refused(f"{' '.join(own)}: exit status {running.returncode}")
    return used.ru_utime + used.ru_stime, took, count


def by_core(data, *more):
    """Returns the same of the live core with `more` words, on the bytes `data`."""
    return piped([SERVE, "--port", SIDES, "--pipes", "1", *more], data)


def pairs():
    """Returns a call, and ticks with another picture and with the same, each as a film has it and as a message."""
    device, asked = frame(0, "DeviceNew"), frame(0, "GetError", 1)
    return [
        Pair("a register asked for its error", PORT + b"0 d = device\n", b"0 error d\n", device, asked, CALLS, "1.5"),
        Pair(f"a tick of {SIDES} whose picture changes", SCRIPT, MOVES, scene(), moves(), TICKS // len(PLACES), "1.2", len(PLACES)),
        Pair(f"a tick of {SIDES} whose picture stays", SCRIPT, b"0 tick\n", scene(), frame(8, "tick"), TICKS, ""),
    ]


def into_pipes(runs):
    """Returns what the ticks cost whose pictures go into pipes that are read, in as many `runs`."""
    film, core = (lambda data: piped(FILM, data)[0]), (lambda data: by_core(data)[0])
    rows = [times(pair._replace(wanted="1.2"), film, core, runs) for pair in pairs()[1:]]
    heads = ("What", "us in a film", "us by the core", "over the film", "wanted, at most")
    return Table("With pictures into a pipe that is read, and not into `/dev/null`:", heads, rows)


def bands(runs):
    """Returns what a tick costs in which the pointer moved, with whole frames and with bands, in as many `runs`: of the core, of who reads,
    and in bytes."""
    rows = []
    for what, words in (("whole frames", ()), ("`--bands`", ("--bands",))):
        costs = []
        for _ in range(runs):
            begun, whole = by_core(pointer(), *words), by_core(pointer() + points() * (TICKS // len(POINTS)), *words)
            costs.append([(all_of - first) / TICKS for first, all_of in zip(begun, whole)])
        core, reader, count = zip(*costs)
        rows.append((what, spread(core, 1e6, 0), spread(reader, 1e6, 0), spread(count[:1], digits=0)))
    caption = f"A tick of {SIDES} in which a pointer of {POINTER}x{POINTER} moved over the window, with its pictures into a pipe:"
    return Table(caption, ("What goes out", "us by the core", "us to read it", "Bytes"), rows)


def copies():
    """Returns the seconds of a copy of a picture's bytes."""
    room = bytearray(len(PIXELS))
    start = time.process_time()
    for _ in range(UPLOADS):
        room[:] = PIXELS
    return (time.process_time() - start) / UPLOADS


def uploads(runs):
    """Returns what a picture that is uploaded costs beside a copy of its bytes, in as many `runs`."""
    held = frame(1, "StreamNew", WIDTH, HEIGHT, "rgbx", 2) + frame(1, "Acquire", 1)
    put = frame(1, "put", 0, 0, WIDTH, HEIGHT, data=PIXELS)
    made = lambda count: held + put * count
    costs = [[*(piece(lambda data, own=own: processor_seconds(own, data), made, UPLOADS) for own in (CORE, ["cat"])), copies()]
             for _ in range(runs)]
    core, read, copy = zip(*costs)
    above = ratios([live - by_cat for live, by_cat, _ in costs], copy)
    heads = ("us by the core", "us by `cat`", "us a copy", "copies in all", "copies above `cat`", "wanted, at most")
    row = (spread(core, 1e6, 0), spread(read, 1e6, 0), spread(copy, 1e6, 0), spread(ratios(core, copy)), spread(above), "2")
    return Table(f"An upload of {SIDES}, {len(PIXELS):,} bytes, beside `cat`, which only reads the same input, and a copy:", heads, [row])


def memory_held(folder):
    """Returns the memory that the core holds at once, counted by what is built into a `folder`."""
    memory, message = Memory(folder), frame(0, "Stat", "streams")
    ticks = scene() + frame(8, "tick") * 10
    inputs = {"one message": message, "a million messages": message * MILLION, "a window over the port, ten ticks": ticks}
    rows = [(what, f"{memory.run(CORE[1:], data, program=SERVE).most:,}") for what, data in inputs.items()]
    return Table(f"The most bytes that the core holds at once, with a port of {SIDES}; wanted are 20 MB at most:", ("Input", "Bytes"), rows)


def live(setting):
    """Yields what a call, a tick and an upload cost the live core, and its memory, in a `setting`."""
    yield from beside(pairs(), CORE, setting.runs)
    yield into_pipes(setting.runs)
    yield bands(setting.runs)
    yield uploads(setting.runs)
    yield memory_held(setting.folder) if compiler() else Left("the memory of the live core", "there is no C compiler")
