"""The public functions of a crate with their clauses, as they stand in `src/`."""

import re
from typing import NamedTuple

from lib.crates import TOP

IMPL = re.compile(r"^impl(?:<.*?>)? (?:.* for )?(\w+)")
PUBLIC = re.compile(r"^( *)pub fn (\w+)")
ENSURES = re.compile(r"^ *ensures (?:(\w+) )?\{")
# Functions without a body of their own, whose clauses no wrong body can break.
LAWS = "laws.rt"


class Function(NamedTuple):
    """A public function: its name as the prover tells it, the end of which stands for it, and the names of its clauses."""

    name: str
    clauses: tuple


def named(path, lines, place, name):
    """The name of the function of a line: a method's with its type, another one's with its module."""
    if not lines[place].startswith(" "):
        return f"{path.stem}::{name}"
    heads = [IMPL.match(line) for line in lines[:place] if line.startswith("impl")]
    return f"{heads[-1][1]}::{name}"


def clauses_at(lines, place, indent):
    """The names of the clauses of the function of a line, with nothing for one that has none."""
    found = []
    for line in lines[place + 1 :]:
        if line.startswith((f"{indent}{{", f"{indent}}}")) or line.endswith("{}"):
            break
        clause = ENSURES.match(line)
        found += [clause[1] or ""] if clause else []
    return tuple(found)


def functions_of(path):
    """The public functions of a file that have a clause."""
    lines = path.read_text(encoding="utf-8").splitlines()
    for place, line in enumerate(lines):
        head = PUBLIC.match(line)
        if head:
            clauses = clauses_at(lines, place, head[1])
            if clauses:
                yield Function(named(path, lines, place, head[2]), clauses)


def public_functions(crate):
    """The public functions of a crate that have a clause, but for laws."""
    for path in sorted((TOP / "crates" / crate / "src").rglob("*.rt")):
        if path.name != LAWS:
            yield from functions_of(path)
