"""Lists the parts of tools/bench, with what each needs, and takes what they measure."""

import os
import shutil
import subprocess
import tempfile
from collections.abc import Callable
from pathlib import Path
from typing import NamedTuple

from lib import bench_films, bench_hostile, bench_library, bench_live, bench_messages, bench_pictures, bench_ticks, counts
from lib.c_library import ARCHIVE
from lib.instructions import has_valgrind
from lib.measuring import Setting
from lib.memory import compiler
from lib.program import DESK, PICTURES, PROGRAM, SERVE, TOP
from lib.tables import Left
from lib.tool import Refused


class Part(NamedTuple):
    """Holds a part of the tool: the `heading` of its section, how it is measured, as `about` tells it, its `runs`, what it `needs`, and
    what yields its `tables` in a setting."""

    heading: str
    about: str
    runs: int
    needs: tuple
    tables: Callable


class Program(NamedTuple):
    """Holds a program: its `path`, the `variable` that names one that was built elsewhere, and the words that prove and build it, with the
    folder where they are said, if the tool does so."""

    path: Path
    variable: str
    words: tuple = ()
    folder: Path = TOP


PROGRAMS = {
    "wfplay": Program(PROGRAM, "WFPLAY", ("./wfplay", "--prove")),
    "wfserve": Program(SERVE, "WFSERVE"),
    "bench_pictures": Program(PICTURES, "WFPICTURES", ("rt", "run"), TOP / "crates/bench_pictures"),
    "bench_desk": Program(DESK, "WFDESK", ("rt", "run"), TOP / "crates/bench_desk"),
}
# What else a part may need: whether it is there, and what is said where it is not.
OTHERS = {
    "library": (ARCHIVE.is_file, "the library for C is not built"),
    "compiler": (compiler, "there is no C compiler"),
    "valgrind": (has_valgrind, "valgrind is not there"),
    "kit": (lambda: shutil.which("rt"), "the command rt, which tells where the heap of the library is, is not there"),
}
PLAYER, PAINTER = ("wfplay",), ("bench_pictures",)
LESS = "A run with many less one with none."
PARTS = {
    "ticks": Part("Ticks without a context", "The film goes into a file.", 7, PLAYER, bench_ticks.ticks),
    "pipelines": Part("Ticks with pipelines", LESS, 7, PLAYER, bench_ticks.pipelines),
    "names": Part("Reading a script", "The whole process, from a file.", 7, PLAYER, bench_ticks.names),
    "scenes": Part("Events", f"An event beside little that is live and beside much: {LESS.lower()}", 7, PLAYER, bench_ticks.scenes),
    "pictures": Part("Pictures", "`bench_pictures picture`, which tells the shortest of 60.", 5, PAINTER, bench_pictures.pictures),
    "workers": Part("Pictures by several workers", "`bench_pictures rows`, which compares the shortest of 60.", 5, PAINTER,
                    bench_pictures.workers),
    "paints": Part("A paint, and calls on the order", "`bench_pictures paint` and `order`.", 5, PAINTER, bench_pictures.paints),
    "repaints": Part("Repainting", LESS, 7, PLAYER, bench_films.repaints),
    "checks": Part("A check beside the play that makes the film", "From files into files.", 7, PLAYER, bench_films.checks),
    "logs": Part("A log beside the check of its film", "From files into files. A log plays its order once more, and writes no pictures.", 7,
                 PLAYER, bench_films.logs),
    "sessions": Part("A message beside the event of a film", f"{LESS} The event's line is read, too.", 7, PLAYER, bench_messages.sessions),
    "live": Part("The live core beside films and a copy",
                 f"{LESS} A tick composes a window over the whole screen, and then the port's frame.", 7, ("wfplay", "wfserve"),
                 bench_live.live),
    "library": Part("The library for C", "Calls by instructions, and pictures beside a `memcpy` of as many bytes in the same run.", 5,
                    ("library", "compiler", "valgrind", "kit"), bench_library.library),
    "desk": Part("A desk beside a lock", "`bench_desk calls`, which tells the shortest of nine rounds of 1,000,000 calls.", 2,
                 ("bench_desk",), bench_pictures.desk),
    "instructions": Part("Instructions", "What `tools/count-instructions` counts.", 1, ("wfplay", "valgrind"), counts.counted),
    "hostile": Part("Inputs that are meant to take long", "The memory that is held is counted by an allocator of the tool.", 3,
                    ("wfplay", "compiler"), bench_hostile.inputs),
}


def lack(part):
    """Returns why a `part` can't be measured, or None."""
    for need in part.needs:
        if need in OTHERS:
            is_there, why = OTHERS[need]
            if not is_there():
                return why
        elif not PROGRAMS[need].path.is_file():
            variable = PROGRAMS[need].variable
            return f"the variable {variable} names no program" if os.environ.get(variable) else f"`{need}` is not built"
    return None


def build(parts):
    """Proves and builds what these `parts` need and no variable names, where the kit is there."""
    needs = {need for part in parts for need in part.needs}
    for name, program in PROGRAMS.items():
        if name in needs and program.words and not os.environ.get(program.variable) and shutil.which("rt"):
            ended = subprocess.run(program.words, cwd=program.folder, stdin=subprocess.DEVNULL, stdout=subprocess.DEVNULL, check=False)
            if ended.returncode:
                raise Refused(f"{name} can't be built: `{' '.join(program.words)}` ends with exit status {ended.returncode}")


def measured(name, runs):
    """Yields what the part of a `name` measures in `runs`, and what it leaves out, with the fault where a program ends otherwise
    than it should."""
    part, whole = PARTS[name], f"the part `{name}`"
    why = lack(part)
    if why:
        yield Left(whole, why)
        return
    try:
        with tempfile.TemporaryDirectory() as folder:
            yield from part.tables(Setting(Path(folder), runs))
    except (Refused, OSError, subprocess.SubprocessError) as fault:
        yield Left(f"the rest of {whole}", str(fault), is_fault=True)
