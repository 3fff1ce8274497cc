"""The crates of crates.txt, from the bottom up, and which of the repository's they name."""

from functools import cache
from pathlib import Path

TOP = Path(__file__).resolve().parent.parent.parent


@cache
def uses():
    """Returns for each crate the crates of the repository that it names, in the order of crates.txt."""
    lines = (TOP / "crates.txt").read_text(encoding="utf-8").splitlines()
    named = dict(line.split("#")[0].split(":") for line in lines if line.split("#")[0].strip())
    crates = {name.split()[0]: below.split() for name, below in named.items()}
    return {name: {other for other in below if other in crates} for name, below in crates.items()}


@cache
def below(name):
    """Returns the crates that a crate stands on."""
    return frozenset().union(uses()[name], *map(below, uses()[name]))


def direct(name):
    """Returns the crates that a crate names and that none of its others stands on."""
    return {other for other in uses()[name] if not any(other in below(third) for third in uses()[name])}
