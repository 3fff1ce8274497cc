"""Messages of all nine clients at random on one core of the live system, for as long as is asked: what it answers, and how much memory it
has."""

import os
import re
import select
import subprocess
import threading
from collections import Counter
from itertools import zip_longest
from pathlib import Path
from typing import NamedTuple

from lib.live import BROKER, CLIENTS, LENGTH, MANAGER, body
from lib.live_cases import shown
from lib.live_random import LiveWriter, answers_in
from lib.living import options_of
from lib.program import SECONDS, SERVE
from lib.serving import film_frames

# How many messages are played at once, and after how many all is taken down again, since sooner or later all streams are kept by scenes.
ROUND, SCENE = 5_000, 400
PIECE = 1 << 16
RESIDENT = re.compile(r"^VmRSS:\s+(\d+) kB$", re.MULTILINE)
# How many KB more a core may have at the end than after its first round.
GROWN = 1024


class Fault(Exception):
    """The core does something else than the model, and what."""


class Told(NamedTuple):
    """A run that agreed: its messages, how many of the nine clients sent some, how many were refused, the frames, and the KB that the core
    had after the first round and at the end."""

    messages: int
    clients: int
    refused: int
    frames: int
    first: int
    last: int


class Rounds(LiveWriter):
    """An input that is written in rounds. Nothing but what the last one added is kept."""

    AT_WORK = (1, 1, 2, 3, 4, 5, 6, 7)

    def __init__(self, chance):
        super().__init__(chance)
        self.clients = Counter()

    def send(self, client, data):
        self.clients[client] += 1
        return super().send(client, data)

    def play(self, count):
        """Plays at least `count` messages."""
        end = self.clients.total() + count
        while self.clients.total() < end:
            scene = self.clients.total() + SCENE
            self.begin()
            while self.clients.total() < scene:
                self.turn()
            self.take_down()

    def take_down(self):
        """Lets the window manager take down all that it made and turn all ports on, and all clients go."""
        self.client = MANAGER
        for pipe in range(1, self.pipes + 1):
            self.say("PipeBindSource", pipe, 0, "now")
        for port in range(1, len(self.ports) + 1):
            self.say("Attach", port, 1)
            self.say("PortSet", port, "power", 1)
        self.say("CommitDevice")
        for name, kind in (("DisplaySourceDestroy", "wsource"), ("DeviceDestroy", "device")):
            for thing in self.machine.of_kind(kind):
                self.say(name, thing.handle)
        for client in CLIENTS:
            self.send(BROKER, body("gone", client))
        self.tick()

    def taken(self):
        """Returns the input, the answers, and the frames and bands that the last round added."""
        own = self.input.getvalue(), self.output, self.bands.getvalue()
        for file in (self.input, self.frames, self.bands):
            file.seek(0)
            file.truncate()
        self.output = []
        return own


class Core:
    """A core that runs, whose frames and bands go to a file."""

    def __init__(self, writer, file):
        words = [str(SERVE), *options_of(writer.ports, writer.pipes, "--frames", file, "--bands")]
        file.touch()
        self.frames = open(file, "rb")
        self.running = subprocess.Popen(words, stdin=subprocess.PIPE, stdout=subprocess.PIPE, bufsize=0)

    def close(self):
        """Ends the input. Returns the status, and what still came."""
        self.running.stdin.close()
        rest = self.running.stdout.read()
        return self.running.wait(SECONDS), rest

    def kill(self):
        """Ends it at once."""
        self.running.kill()
        self.running.wait()
        self.frames.close()

    def answers(self, data, count):
        """Writes `data` to the core, and returns the next `count` bytes that it answers, or fewer where no more come."""
        writing = threading.Thread(target=self.write, args=(data,))
        writing.start()
        came, source = bytearray(), self.running.stdout.fileno()
        while len(came) < count and select.select([source], [], [], SECONDS)[0]:
            more = os.read(source, min(PIECE, count - len(came)))
            if not more:
                break
            came += more
        if len(came) < count:
            self.running.kill()
        writing.join()
        return bytes(came)

    def write(self, data):
        """Writes `data`, as far as the core takes it."""
        try:
            self.running.stdin.write(data)
        except OSError:
            pass

    def resident(self):
        """Returns how many KB of memory it has."""
        return int(RESIDENT.search(Path(f"/proc/{self.running.pid}/status").read_text(encoding="ascii"))[1])


def compare(core, own, number):
    """Plays a round by the core, and raises Fault where it puts something else. Returns how many messages were refused."""
    data, wanted, frames = own
    came = core.answers(data, sum(map(len, wanted)))
    if came != b"".join(wanted):
        told = answers_in(came)
        place = next(place for place, (one, two) in enumerate(zip_longest(told, wanted)) if one != two)
        here = slice(place, place + 1)
        raise Fault(f"round {number}: answer {place} is {shown(told[here])}, and by the model {shown(wanted[here])}")
    if core.frames.read() != frames:
        raise Fault(f"round {number}: the frames are others")
    return sum(answer[LENGTH + 2] != 0 for answer in wanted)


def soaked(chance, count, folder):
    """Plays `count` messages. Returns what is told of them, or raises Fault."""
    writer = Rounds(chance)
    core, refused, frames, sizes, last = Core(writer, folder / "frames"), 0, 0, [], {}
    try:
        for number in range(max(2, -(-count // ROUND))):
            writer.play(min(ROUND, count // 2))
            own = writer.taken()
            refused, frames = refused + compare(core, own, number), frames + sum(1 for _ in film_frames(own[-1], last))
            sizes.append(core.resident())
        end = core.close()
        if end != (0, b""):
            raise Fault(f"at the end the status is {end[0]}, and {len(end[1])} bytes more come")
    finally:
        core.kill()
    if sizes[-1] > sizes[0] + GROWN:
        raise Fault(f"the core had {sizes[0]} KB after the first round, and {sizes[-1]} KB at the end")
    return Told(writer.clients.total(), len(writer.clients.keys() & set(CLIENTS)), refused, frames, sizes[0], sizes[-1])
