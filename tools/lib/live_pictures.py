"""Whole live systems that are tried for what their core puts: pictures that stay as they are, pictures that the window manager asks for,
the largest of these, and a framebuffer; and how frames and bands are pasted in C."""

import random
import subprocess
import time

from lib.film import CODES
from lib.limits import MOST_PORTS, MOST_SIDE
from lib.live import APPS, TICK, body, framed
from lib.live_hostile import is_cut_off, is_soon
from lib.live_random import written
from lib.live_tries import CHANGED, COMMIT, MANAGER, PIPES, ROWS, SIDES, change, fresh, replays, still, still_pixels
from lib.living import LIVE, SECONDS, System
from lib.player import PAINTED
from lib.serving import BAND, FRAME, FRAME_HEAD, ROWS_HEAD, film_frames, screen_picture

from wfclient import Client, Output  # lib.live_tries says where they stand
from words import SHOW, word

OK, UNSUPPORTED = CODES.index("Ok"), CODES.index("Unsupported")
DEVICE, CONTEXT, STREAM = 1, 2, 3
SMALL, BLACK = (3, 2), b"\0\0\0\xff"
# The bytes of a row of the framebuffer, which are more than its pixels have, and how often it is ticked.
STRIDE, HZ = 4 * SIDES[0] + 52, 100
# A number of the largest pictures that is more than the broker keeps for a client that reads none.
TOO_MANY = 12
FULL = "/dev/full"
FRAMES_FAULT = 7
# How many inputs at random are pasted, and of how many deeds each.
INPUTS, DEEDS = 20, 60
# What is no frame after a frame of a port of 2 by 3 pixels, in two bytes each: a letter, a port, the sides, and of a band its rows.
STRANGE = (
    (b"G", 1, 2, 3), (FRAME, 0, 2, 3), (FRAME, 5, 2, 3), (FRAME, 1, 0, 3), (FRAME, 1, 2, 0), (BAND, 0, 2, 3, 0, 1), (BAND, 2, 2, 3, 0, 1),
    (BAND, 1, 3, 3, 0, 1), (BAND, 1, 2, 4, 0, 1), (BAND, 1, 2, 3, 0, 0), (BAND, 1, 2, 3, 3, 1), (BAND, 1, 2, 3, 1, 3),
    (BAND, 1, 2, 3, 65535, 65535),
)


def picture_of(reply):
    """Returns the sides and the pixels of an answer to BeginPort."""
    data = reply.data
    return int.from_bytes(data[:2], "big"), int.from_bytes(data[2:4], "big"), data[4:]


def filled(sides, *color):
    """Returns a picture of these sides and of one colour: its sides and its pixels."""
    return (*sides, bytes([*color, 255]) * sides[0] * sides[1])


class Looked:
    """An output whose ticks are told by the pictures that come with them, by the port."""

    def __init__(self, output, frames):
        self.output = output
        self.frames = frames
        self.count = 0

    def tick(self):
        """Ticks. Returns the pictures, by the port. Their bytes are counted."""
        data = self.output.shown()[1]
        self.frames += data
        self.count = len(data)
        return {frame[0]: frame[2:] for frame in film_frames(data, self.output.last)}


def stays(system, frames):
    """Lets pictures stay and change, before one output and then another. Yields what has to hold, each with whether it does."""
    client, large = still(system.place), (*SIDES, still_pixels())
    with Output(system.place) as output:
        looked = Looked(output, frames)
        yield "the first tick brings both ports", looked.tick() == {1: large, 2: filled(SMALL, 0, 0, 0)}
        yield "the second one nothing", looked.tick() == {}
        yield "the window manager gets the picture of port 1", picture_of(client.begin_port(1)) == large
        yield "and of port 2", picture_of(client.begin_port(2)) == filled(SMALL, 0, 0, 0)
        yield "which brings no frame", looked.tick() == {}
        client.port_set(2, "background", [9, 8, 7])
        client.commit_port(2)
        yield "a change is in its picture before a tick", picture_of(client.begin_port(2)) == filled(SMALL, 9, 8, 7)
        yield "the next tick brings the changed port alone", looked.tick() == {2: filled(SMALL, 9, 8, 7)}
        with Client("app", system.place) as app:
            yield "an app gets no picture", [app.say("BeginPort", 1).code, app.say("BeginContext", 1, 2).code] == [UNSUPPORTED] * 2
    with Output(system.place) as output:
        looked = Looked(output, frames)
        yield "the next output gets both ports whole", looked.tick() == {1: large, 2: filled(SMALL, 9, 8, 7)}
        yield "and then nothing", looked.tick() == {}
        change(client)
        yield "another picture in some rows comes", looked.tick() == {1: (*SIDES, still_pixels(*CHANGED))}
        yield "as these rows alone", looked.count == FRAME_HEAD.size + ROWS_HEAD.size + 4 * SIDES[0] * ROWS[1]
        client.deactivate(DEVICE, CONTEXT)
        client.acquire(STREAM)
        client.fill(1, 2, 3, 255)
        client.post()
        client.sync()
        yield "an image that nothing composes brings nothing", looked.tick() == {}
        yield "the window manager composes it", client.begin_context(DEVICE, CONTEXT).value == CONTEXT
        yield "the next tick brings it", looked.tick() == {1: filled(SIDES, 1, 2, 3)}
        yield "once", looked.tick() == {}
    client.close()


def tries_stays(folder, own):
    """Runs a system whose pictures stay and change. Yields what is otherwise than it should be."""
    system, frames = System(fresh(folder, "stays"), own.broker, [SIDES, SMALL], PIPES, is_recorded=True), bytearray()
    try:
        yield from (f"stays: it does not hold: {what}" for what, holds in stays(system, frames) if not holds)
    finally:
        status = system.close()
    if status:
        yield f"stays: the broker ends with {status}"
    yield from (f"stays: {line}" for line in replays(system, bytes(frames)))


def tries_largest(folder, own):
    """Asks for the largest pictures, of all ports at once. Yields what is otherwise than it should be."""
    ports, sides = range(1, MOST_PORTS + 1), (MOST_SIDE, MOST_SIDE)
    system = System(fresh(folder, "largest"), own.broker, [sides] * MOST_PORTS, 0)
    try:
        with Client("wm", system.place) as client:
            for port in ports:
                client.port_set(port, "background", [port, 2, 3])
            client.commit_device()
            replies = [client.begin_port(port) for port in ports]
            client.flush()
            time.sleep(1)
            if [picture_of(reply) for reply in replies] != [filled(sides, port, 2, 3) for port in ports]:
                yield "largest: the pictures of all ports at once are others"
        done = subprocess.run([own.looking, system.place, "4"], capture_output=True, timeout=SECONDS, check=False)
        if done.stdout != bytes([4, 0, 4, 0]) + filled(sides, 4, 2, 3)[-1]:
            yield f"largest: by wfclient.h the picture is another one: {done.stderr.decode(errors='replace').strip()}"
        with Client("wm", system.place) as greedy:
            greedy.socket.setblocking(True)
            greedy.socket.sendall(framed(body("BeginPort", 1)) * TOO_MANY)
            greedy.socket.settimeout(SECONDS)
            if not is_soon(lambda: "too much to read" in system.notes.read_text(encoding="utf-8")) or not is_cut_off(greedy.socket):
                yield "largest: a window manager that asks for pictures and reads none is not cut off"
        with Client("wm", system.place) as client:
            if client.begin_port(1).code != OK:
                yield "largest: the next window manager gets no picture"
    finally:
        status = system.close()
    if status:
        yield f"largest: the broker ends with {status}"


def pattern(blue):
    """Returns pixels that are known by their place: red and green tell the column and the row."""
    width, height = SIDES
    return b"".join(bytes((x, y, blue, 255)) for y in range(height) for x in range(width))


def on_screen(blue):
    """Returns the same as the framebuffer has it."""
    width, height = SIDES
    return b"".join(b"".join(bytes((blue, y, x, 255)) for x in range(width)) + bytes(STRIDE - 4 * width) for y in range(height))


def shows(client, stream, blue):
    """Shows the pattern with a blue."""
    client.acquire(stream)
    client.put(0, 0, *SIDES, pattern(blue))
    client.post()
    client.sync()


def ticks_in_a_row(app):
    """Waits for a quarter of a second's ticks as an `app`, and returns whether each is the next one."""
    first = app.wait().value
    return [app.wait().value for _ in range(HZ // 4)] == list(range(first + 1, first + 1 + HZ // 4))


def screens(system, own, file):
    """Lets an app show something through the kiosk, in a file as on a screen. Yields what has to hold, each with whether it does."""
    system.start(own.kiosk, system.place)
    system.recorded.wait_for(MANAGER, COMMIT, 1)
    with Client("app", system.place) as app:
        stream = app.stream_new(*SIDES, "rgbx", 3).value
        shows(app, stream, 7)
        app.tell(MANAGER, word(SHOW, stream, *SIDES)).awaited()
        ticks = system.start(LIVE / "ticks.py", system.place, HZ)
        yield "the file has the picture", is_soon(lambda: file.read_bytes() == on_screen(7))
        shows(app, stream, 8)
        yield "it has the next one", is_soon(lambda: file.read_bytes() == on_screen(8))
        with open(file, "r+b") as screen:
            screen.write(b"?" * 16)
        for _ in range(3):
            app.wait().awaited()
        yield "a picture that stays is not written again", file.read_bytes() == b"?" * 16 + on_screen(8)[16:]
        ticks.terminate()
        ticks.wait()
        system.start(LIVE / "ticks.py", system.place, HZ)
        yield "once another output ticks it is", is_soon(lambda: file.read_bytes() == on_screen(8))
        # An app that gets no time on a busy machine asks for the next tick too late.
        yield "no tick is left out", is_soon(lambda: ticks_in_a_row(app))
        begun = time.monotonic()
        for _ in range(HZ // 4):
            app.wait().awaited()
        yield "and there are no more of them than were asked for", time.monotonic() - begun > 0.8 / 4
        system.recorded.read()
        yield "the output asks for ticks alone", {number for client, number in system.recorded.counts if client == len(APPS) + 1} == {TICK}


def tries_screen(folder, own):
    """Runs a system with a plain file as the framebuffer. Yields what is otherwise than it should be."""
    place = fresh(folder, "screen")
    file = place / "screen"
    sink = ("--fb", file, "--stride", STRIDE)
    # The second port shows nothing, and no pointer stands on a pipeline.
    system = System(place, own.broker, [SIDES, SMALL], 0, is_recorded=True, sink=sink)
    try:
        yield from (f"screen: it does not hold: {what}" for what, holds in screens(system, own, file) if not holds)
    finally:
        status = system.close()
    if status:
        yield f"screen: the broker ends with {status}"
    yield from (f"screen: {line}" for line in replays(system, file.read_bytes()))


def tries_full(folder, own):
    """Lets a screen take no byte. Yields where the broker doesn't end with the core's status."""
    for number, sink in enumerate((("--frames", FULL), ("--frames", FULL, "--bands"), ("--fb", FULL))):
        with System(fresh(folder, f"full{number}"), own.broker, [SMALL], 0, sink=sink) as system:
            ticks = system.start(LIVE / "ticks.py", system.place, stderr=subprocess.DEVNULL)
            status, ended = system.broker.wait(SECONDS), ticks.wait(SECONDS)
            if (status, ended) != (FRAMES_FAULT, 0):
                yield f"full: {' '.join(sink)}: the broker ends with {status}, and the ticks with {ended}"


def words_of(width, pixels):
    """Returns a picture as words of X R G B."""
    words = bytearray(screen_picture(width, pixels, 4 * width))
    words[3::4] = bytes(len(words) // 4)
    return bytes(words)


def tries_pasted(folder, own):
    """Lets frames and bands be pasted in C, those of inputs at random, and what is none. Yields where other pictures come of it."""
    del folder
    for number in range(INPUTS):
        PAINTED.clear()
        inputs = written(random.Random(number), DEEDS)
        wanted = b"".join(bytes([port]) + words_of(width, pixels) for port, _, width, _, pixels in film_frames(inputs.frames.getvalue()))
        done = subprocess.run([own.pasting], input=inputs.bands.getvalue(), capture_output=True, timeout=SECONDS, check=False)
        if done.returncode or done.stdout != wanted:
            yield f"pasted: input {number}: the pictures are others: {done.stderr.decode(errors='replace').strip()}"
    for letter, port, width, height, *rows in STRANGE:
        first = FRAME_HEAD.pack(FRAME, 1, 1, 2, 3) + bytes(24)
        data = first + FRAME_HEAD.pack(letter, port, 2, width, height) + (ROWS_HEAD.pack(*rows) if rows else b"") + bytes(100)
        done = subprocess.run([own.pasting], input=data, capture_output=True, timeout=SECONDS, check=False)
        told = done.stderr.decode(errors="replace").strip()
        if (done.returncode, told) != (1, "the frames are none"):
            yield f"pasted: {letter} {port} {width} {height} {rows}: status {done.returncode}: {told}"


PICTURES = (tries_stays, tries_largest, tries_screen, tries_full, tries_pasted)
