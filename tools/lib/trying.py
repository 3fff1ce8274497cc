"""What the tests of the tools share: tools as modules and as programs, and PNG files by their chunks."""

import contextlib
import importlib.machinery
import importlib.util
import io
import json
import os
import re
import struct
import subprocess
import sys
import zlib

from lib.film import Film
from lib.program import PROGRAM, TOP, play

TOOLS = TOP / "tools"
SECONDS = 60


def tool(name):
    """A tool as a module."""
    loader = importlib.machinery.SourceFileLoader(name.replace("-", "_"), str(TOOLS / name))
    module = importlib.util.module_from_spec(importlib.util.spec_from_loader(loader.name, loader))
    loader.exec_module(module)
    return module


def said(module, *words):
    """What a tool prints for these words, in this process."""
    out = io.TextIOWrapper(io.BytesIO(), "utf-8", write_through=True)
    kept, sys.argv = sys.argv, [module.NAME, *map(str, words)]
    try:
        with contextlib.redirect_stdout(out):
            module.main()
    finally:
        sys.argv = kept
    return out.buffer.getvalue()


def ran(name, *words, data=b""):
    """The status, the output and the notes of a tool as a program of its own, which reads a pipe. It builds no program."""
    words = [str(TOOLS / name), *map(str, words)]
    around = os.environ | {"WFPLAY": str(PROGRAM)}
    done = subprocess.run(words, input=data, capture_output=True, timeout=SECONDS, env=around, check=False)
    return done.returncode, done.stdout, done.stderr.decode()


def played(path, form=2):
    """The film of a script in a form, as the built program plays it."""
    status, film, notes = play(path.read_text(encoding="utf-8"), form)
    assert status == 0, f"{path}: {notes}"
    return film


def read(data):
    """The frames and the entries of a film."""
    film = Film(io.BytesIO(data))
    return list(film.frames()), list(film.entries())


def chunks(data):
    """The chunks of a PNG file as kind and data, with right check sums."""
    assert data[:8] == b"\x89PNG\r\n\x1a\n"
    at, found = 8, []
    while at < len(data):
        (length,) = struct.unpack_from(">I", data, at)
        kind, body = data[at + 4 : at + 8], data[at + 8 : at + 8 + length]
        assert struct.unpack_from(">I", data, at + 8 + length) == (zlib.crc32(kind + body),)
        found.append((kind, body))
        at += 12 + length
    return found


def unpacked(body, width, height):
    """The pixels of a picture's compressed rows, each of which says that it is kept as it is."""
    rows = zlib.decompress(body)
    assert len(rows) == height * (4 * width + 1)
    starts = range(0, len(rows), 4 * width + 1)
    assert all(rows[start] == 0 for start in starts)
    return b"".join(rows[start + 1 : start + 1 + 4 * width] for start in starts)


def picture_of(data):
    """The sides and the pixels of a PNG file."""
    parts = chunks(data)
    assert [kind for kind, _ in parts] == [b"IHDR", b"IDAT", b"IEND"]
    width, height, *form = struct.unpack(">IIBBBBB", parts[0][1])
    assert form == [8, 6, 0, 0, 0]
    return width, height, unpacked(parts[1][1], width, height)


def data_of(page):
    """What a page has of its film."""
    return json.loads(re.search(r'<script type="application/json" id="film">(.*?)</script>', page.decode(), re.DOTALL)[1])
