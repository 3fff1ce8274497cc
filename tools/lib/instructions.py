"""Counts the instructions of programs by valgrind."""

import os
import re
import shutil
import subprocess

from lib.measuring import look_at
from lib.tool import Refused

# The C library copies and sets bytes by what the processor has; here by what each has.
PLAIN = os.environ | {"GLIBC_TUNABLES": "glibc.cpu.hwcaps=-AVX,-AVX2,-AVX512F,-ERMS,-FSRM"}


def has_valgrind():
    """Returns whether valgrind is there."""
    return shutil.which("valgrind") is not None


def instructions(words, data):
    """Returns the instructions of a run of `words` on the bytes `data`."""
    own = ["valgrind", "--tool=callgrind", "--callgrind-out-file=/dev/null", *map(str, words)]
    ran = subprocess.run(own, input=data, stdout=subprocess.DEVNULL, stderr=subprocess.PIPE, env=PLAIN, check=False)
    look_at(own, ran, 0)
    counts = re.findall(rb"refs:\s+([\d,]+)", ran.stderr)
    if not counts:
        raise Refused("valgrind tells no count of instructions")
    return int(counts[-1].replace(b",", b""))
