"""Starts the parts of a live system, docs/live.md, in a folder, and stops them."""

import contextlib
import os
import shutil
import signal
import subprocess
import sys
import time
from collections import Counter

from lib.crates import TOP
from lib.live import LENGTH
from lib.program import SERVE
from lib.tool import Refused

LIVE = TOP / "live"
MODEL = TOP / "tools/serve-live"
WARNINGS = ["-std=c11", "-Wall", "-Wextra", "-Werror"]
SANITIZED = ["-g", "-fsanitize=address,undefined", "-fno-sanitize-recover=all"]
SECONDS = 30
# Where the pictures of a core go that the broker starts: to the descriptor of the frames' pipe, as the rows that changed.
TO_OUTPUT = ("--frames", "/dev/fd/3", "--bands")
# Keeps what goes through a pipe in a file, before the core and behind it.
RECORDED = 'into=$1 outof=$2; shift 2; tee "$into" | "$@" | tee "$outof"'


class NoWay(Exception):
    """A part can't be built or started, and why."""


def has_compiler():
    """Returns whether there is a compiler of C."""
    return shutil.which("cc") is not None


def built(name, folder, *flags):
    """Returns the program that a source in live/ is compiled to, into a `folder`, with `flags` as they stand behind it."""
    return compiled(LIVE / f"{name}.c", folder, *flags)


def compiled(source, folder, *flags):
    """Returns the program that a `source` is compiled to, in the same way."""
    program = folder / source.stem
    words = ["cc", *WARNINGS, "-O2", source, "-o", program, *flags]
    done = subprocess.run(list(map(str, words)), capture_output=True, text=True, check=False)
    if done.returncode:
        raise NoWay(f"{source.name}: {done.stderr}")
    return program


def core_words():
    """Returns the command of the core: the program that WFSERVE names, or that of this checkout where it is built, or the model."""
    if os.environ.get("WFSERVE") and not SERVE.is_file():
        raise Refused(f"the variable WFSERVE names no program: {SERVE}")
    return [str(SERVE if SERVE.exists() else MODEL)]


def options_of(ports, pipes, *sink):
    """Returns the words of a core with these `ports`, which are sides, and `pipes`, and after them those of the `sink`, which
    say where the pictures go."""
    return ["--port", ",".join(f"{w}x{h}" for w, h in ports), "--pipes", str(pipes), *map(str, sink)]


class Recorded:
    """The core's input and output, as files that grow, and how many messages of each client and number the input has so far."""

    def __init__(self, folder):
        self.input = folder / "input"
        self.output = folder / "output"
        self.counts = Counter()
        self.at = 0

    def read(self):
        """Counts what was added."""
        with open(self.input, "rb") as source:
            source.seek(self.at)
            data = source.read()
        at = 0
        while len(data) >= at + LENGTH and len(data) >= (end := at + LENGTH + int.from_bytes(data[at : at + LENGTH], "big")):
            self.counts[data[at + LENGTH], data[at + LENGTH + 1]] += 1
            at = end
        self.at += at

    def wait_for(self, client, number, count):
        """Waits until a `client` sent so many messages of a `number`."""
        end = time.monotonic() + SECONDS
        while self.counts[client, number] < count:
            if time.monotonic() > end:
                raise NoWay(f"client {client} sent {self.counts[client, number]} messages {number}, and {count} are waited for")
            time.sleep(0.002)
            self.read()


class System:
    """A broker with its core in a `folder`, with what was recorded, and the other parts that were started. `broker` is its program, and the
    core has these `ports`, which are sides, and `pipes`; its pictures go where the words of the `sink` say, a word and a file first."""

    def __init__(self, folder, broker, ports, pipes=1, core=None, is_recorded=False, sink=TO_OUTPUT):
        self.folder = folder
        self.place = folder / "wf"
        self.ports, self.pipes, self.sink = ports, pipes, sink
        words = [*(core or core_words()), *options_of(ports, pipes, *sink)]
        self.recorded = Recorded(folder) if is_recorded else None
        if self.recorded:
            self.recorded.input.touch()
            words = ["sh", "-c", RECORDED, "sh", str(self.recorded.input), str(self.recorded.output), *words]
        self.parts = []
        self.notes = folder / "notes"
        with open(self.notes, "wb") as notes:
            self.broker = subprocess.Popen([str(broker), str(self.place), "--", *words], stderr=notes)
        self.wait_for_doors()

    def __enter__(self):
        return self

    def __exit__(self, *_):
        self.close()

    def wait_for_doors(self):
        """Waits until the broker takes clients."""
        end = time.monotonic() + SECONDS
        while not (self.place / "out").exists():
            if self.broker.poll() is not None or time.monotonic() > end:
                raise NoWay(f"the broker does not start: {self.notes.read_text(encoding='utf-8')}")
            time.sleep(0.002)

    def start(self, *words, **more):
        """Starts another part, in whose environment WF_DIR names the sockets' folder. Returns its process."""
        around = os.environ | {"WF_DIR": str(self.place)}
        words = [sys.executable, *map(str, words)] if str(words[0]).endswith(".py") else list(map(str, words))
        part = subprocess.Popen(words, env=around, **more)
        self.parts.append(part)
        return part

    def close(self):
        """Stops all parts, the broker last. Returns its status, or one less than 0 where it had to be killed."""
        for part in self.parts:
            with contextlib.suppress(ProcessLookupError):
                part.send_signal(signal.SIGCONT)
                part.terminate()
        for part in self.parts:
            part.wait()
        self.broker.terminate()
        try:
            return self.broker.wait(SECONDS)
        except subprocess.TimeoutExpired:
            self.broker.kill()
            return self.broker.wait()
