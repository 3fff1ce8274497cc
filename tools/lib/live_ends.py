"""How a core of the live system ends, docs/live.md: where its input is cut or comes byte by byte, and where its answers or its pictures go
nowhere."""

import contextlib
import io
import os
import select
import signal
import subprocess
import tempfile
from pathlib import Path
from typing import NamedTuple

from lib.live import BROKER, LENGTH, MANAGER, OUTPUT, body, framed
from lib.living import SECONDS, NoWay, core_words, options_of
from lib.player import PAINTED
from lib.program import SERVE
from lib.serving import Live, band, film_frame, screen_picture

PORTS, PIPES = [(2, 1), (1, 1)], 1
# The exit statuses.
NO_FILE, READ_FAULT, ANSWERS_FAULT, FRAMES_FAULT, BAD_FRAME = 1, 3, 6, 7, 11
# The messages of an input of some 300 bytes, each of a client.
MESSAGES = (
    (1, "StreamNew", 2, 1, "rgbx", 2),
    (1, "Acquire", 1),
    (1, "put", 0, 0, 1, 1),
    (1, "Post"),
    (MANAGER, "DeviceNew"),
    (MANAGER, "ScreenContext", 2, 1),
    (MANAGER, "BeginContext", 2, 3),
    (1, "wait"),
    (OUTPUT, "tick"),
    (MANAGER, "PortSet", 2, "background", [4, 5, 6]),
    (MANAGER, "CommitPort", 2),
    (MANAGER, "BeginPort", 2),
    (OUTPUT, "tick"),
    (OUTPUT, "tick"),
    (2, "tell", 0),
    (BROKER, "gone", 8),
    (OUTPUT, "tick"),
    (1, "hex"),
)
BYTES = {"put": bytes(4), "tell": b"hello"}
# A few fronts of it are enough for the model, which begins slowly.
MODEL_STEP = 17


class Whole(NamedTuple):
    """A message of the input: the byte after it, and what the core has put once it has read it: its answers, and its pictures as frames of
    a film, or as bands."""

    end: int
    answers: bytes
    frames: bytes
    bands: bytes


def messages():
    """Yields the messages of the input as frames."""
    for client, name, *values in MESSAGES:
        yield framed(bytes([client]), b"\x63" if name == "hex" else body(name, *values, data=BYTES.get(name, b"")))


def wholes():
    """Returns the input, and its messages with what the model puts, before which nothing stands."""
    data, answers, frames, bands = b"", b"", io.BytesIO(), io.BytesIO()
    PAINTED.clear()
    live = Live(PORTS, PIPES, lambda *picture: (frames.write(film_frame(*picture)), bands.write(band(*picture))))
    found = [Whole(0, b"", b"", b"")]
    for own in messages():
        data += own
        answers += b"".join(framed(bytes([client]), answer) for client, answer in live.answers(own[LENGTH], own[LENGTH + 1 :]))
        found.append(Whole(len(data), answers, frames.getvalue(), bands.getvalue()))
    return data, found


def ignoring():
    """Lets a program see by what a write answers that nobody reads, and not by a signal."""
    signal.signal(signal.SIGPIPE, signal.SIG_IGN)


def core(*sink):
    """Returns the command of a core whose pictures go where the words say."""
    return [*core_words(), *options_of(PORTS, PIPES, *sink)]


def status_of(words, data, folder, **more):
    """Runs a core on an input, which is bytes or a descriptor. Returns its status and what it put, or NoWay where it does not end."""
    if isinstance(data, bytes):
        (folder / "input").write_bytes(data)
        data = os.open(folder / "input", os.O_RDONLY)
    more = {"stdout": subprocess.PIPE} | more
    try:
        done = subprocess.run(words, stdin=data, stderr=subprocess.DEVNULL, timeout=SECONDS, check=False, preexec_fn=ignoring, **more)
    except subprocess.TimeoutExpired:
        raise NoWay(f"{' '.join(words)}: it does not end") from None
    finally:
        os.close(data)
    return done.returncode, done.stdout


def fronts(folder):
    """Cuts the input at each byte. Yields where other messages are answered than those that are whole, or a cut one is not told."""
    data, found = wholes()
    frames = folder / "frames"
    for cut in range(0, len(data) + 1, 1 if SERVE.exists() else MODEL_STEP):
        whole = [each for each in found if each.end <= cut][-1]
        # With bands at each other byte, and at the ends of messages.
        sinks = {("--frames", frames): whole.frames}
        if whole.end == cut or cut % 2:
            sinks["--frames", frames, "--bands"] = whole.bands
        for sink, pictures in sinks.items():
            status, out = status_of(core(*sink), data[:cut], folder)
            if status != (0 if whole.end == cut else BAD_FRAME):
                yield f"cut at {cut}: {' '.join(sink[::2])}: the status is {status}"
            if (out, frames.read_bytes()) != (whole.answers, pictures):
                yield f"cut at {cut}: {' '.join(sink[::2])}: other answers or pictures than those of the messages that are whole"
    for length in (0, 1, 4_194_339, 2**32 - 1):
        status, out = status_of(core("--frames", frames), data + length.to_bytes(LENGTH, "big") + bytes(9), folder)
        if (status, out) != (BAD_FRAME, found[-1].answers):
            yield f"a length of {length}: the status is {status}"


def read_just(source, count):
    """Returns the next `count` bytes of a pipe, or fewer where no more come in time."""
    data = b""
    while len(data) < count and select.select([source], [], [], SECONDS)[0] and (more := os.read(source, count - len(data))):
        data += more
    return data


def bytewise(folder):
    """Writes the input byte by byte into a pipe. Yields where a message is not answered as soon as it is whole."""
    data, found = wholes()
    ends = {each.end: each.answers for each in found}
    out = b""
    words = core("--frames", folder / "frames")
    with subprocess.Popen(words, stdin=subprocess.PIPE, stdout=subprocess.PIPE, stderr=subprocess.DEVNULL, bufsize=0) as running:
        try:
            for at in range(len(data)):
                os.write(running.stdin.fileno(), data[at : at + 1])
                wanted = ends.get(at + 1, out)
                out += read_just(running.stdout.fileno(), len(wanted) - len(out))
                if out != wanted:
                    yield f"byte by byte, at {at + 1}: the answers are others, or come late"
                    break
            running.stdin.close()
            status = running.wait(SECONDS)
            if status or running.stdout.read() or (folder / "frames").read_bytes() != found[-1].frames:
                yield f"byte by byte: status {status}, or other answers or pictures"
        finally:
            running.kill()


@contextlib.contextmanager
def pipes():
    """Makes a pipe that nobody reads, and one that is open at both ends. Yields the ends that are written to."""
    read, nobody = os.pipe()
    os.close(read)
    read, somebody = os.pipe()
    try:
        yield nobody, somebody
    finally:
        for each in (read, nobody, somebody):
            os.close(each)


def faults(folder):
    """Lets answers, pictures and the input fail. Yields where a core ends otherwise than it should, or answers more than it did."""
    data, found = wholes()
    first = next(whole for whole, after in zip(found, found[1:]) if after.frames)
    frames = folder / "frames"
    with pipes() as ends:
        nobody, somebody = ends
        status, _ = status_of(core("--frames", frames), data, folder, stdout=nobody)
        if status != ANSWERS_FAULT:
            yield f"where nobody reads the answers, the status is {status}"
        # A pipe can't take one picture in the place of another.
        sinks = [("--frames", "/dev/full"), ("--frames", "/dev/full", "--bands"), ("--fb", "/dev/full"), ("--frames", f"/dev/fd/{nobody}"),
                 ("--fb", f"/dev/fd/{somebody}")]
        for sink in sinks:
            status, out = status_of(core(*sink), data, folder, pass_fds=ends)
            if (status, out) != (FRAMES_FAULT, first.answers):
                yield f"{' '.join(sink)}: the status is {status}, and the answers are not those of the messages before the first picture"
            status, out = status_of(core(*sink), data[: first.end], folder, pass_fds=ends)
            if (status, out) != (0, first.answers):
                yield f"{' '.join(sink)}: without a picture the status is {status}"
    with open("/dev/full", "wb") as full:
        status, _ = status_of(core("--frames", frames), data, folder, stdout=full)
        if status != ANSWERS_FAULT:
            yield f"answers to /dev/full: the status is {status}"
    status, out = status_of(core("--frames", frames), os.open(os.devnull, os.O_WRONLY), folder)
    if (status, out) != (READ_FAULT, b""):
        yield f"an input that can't be read: the status is {status}"
    for word in ("--frames", "--fb"):
        status, out = status_of(core(word, folder / "none" / "file"), data, folder)
        if (status, out) != (NO_FILE, b""):
            yield f"{word} with a file that can't be opened: the status is {status}"


def screens(folder):
    """Lets the core write into a plain file as into a framebuffer. Yields where it has something else than the last picture of port 1."""
    file, data = folder / "screen", b"".join(messages())
    width, height = PORTS[0]
    wanted = screen_picture(width, b"\0\0\0\xff" * width * height, 4 * width)
    for stride in (None, 4 * width, 4 * width + 5, 65_536):
        words, stride = ([], 4 * width) if stride is None else (["--stride", str(stride)], stride)
        file.write_bytes(b"?" * 200_000)
        status, _ = status_of(core("--fb", file, *words), data, folder)
        rows = [wanted[at : at + 4 * width] + bytes(stride - 4 * width) for at in range(0, len(wanted), 4 * width)]
        if status or file.read_bytes() != b"".join(rows):
            yield f"--fb {' '.join(words)}: status {status}, or the file has another picture"


def tries_ends():
    """Lets cores end in all these ways. Yields what is otherwise than it should be."""
    with tempfile.TemporaryDirectory() as name:
        for tries in (fronts, bytewise, faults, screens):
            try:
                yield from (f"{tries.__name__}: {line}" for line in tries(Path(name)))
            except (NoWay, subprocess.TimeoutExpired) as fault:
                yield f"{tries.__name__}: {fault}"
