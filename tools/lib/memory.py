"""Runs the built program with memory that counts what is asked of it, and refuses one call where it is told to. The C source of that
memory stands beside this file, and is built where it is needed."""

import os
import shutil
import subprocess
from pathlib import Path
from typing import NamedTuple

from lib.program import PROGRAM

SOURCE = Path(__file__).resolve().parent / "refusing.c"
SECONDS = 300


class Run(NamedTuple):
    """How a run ended: its status, what it put and what it noted; and how often it asked for memory, how often that was refused, and the
    most bytes that it held at once, all 0 where it told nothing of that."""

    status: int
    out: bytes
    notes: str
    calls: int
    refused: int
    most: int


def compiler():
    """A C compiler of this machine, or None."""
    return shutil.which(os.environ.get("CC") or "cc") or shutil.which("gcc") or shutil.which("clang")


class Memory:
    """The memory, built into a folder."""

    def __init__(self, folder):
        self.folder = Path(folder)
        self.library = self.folder / "refusing.so"
        subprocess.run([compiler(), "-O2", "-shared", "-fPIC", "-o", str(self.library), str(SOURCE)], check=True)

    def run(self, words, data=b"", refuse=0, program=PROGRAM):
        """Runs the program by these words, on these bytes or on an open file, with one call for memory refused, 0 for none. `program` is
        another one."""
        told = self.folder / "told"
        told.unlink(missing_ok=True)
        around = os.environ | {"LD_PRELOAD": str(self.library), "WF_REFUSE": str(refuse), "WF_TOLD": str(told)}
        given = {"input": data} if isinstance(data, bytes) else {"stdin": data}
        ran = subprocess.run([str(program), *words], **given, capture_output=True, timeout=SECONDS, env=around, check=False)
        numbers = map(int, told.read_text(encoding="ascii").split()) if told.exists() else (0, 0, 0)
        return Run(ran.returncode, ran.stdout, ran.stderr.decode("utf-8", "replace"), *numbers)
