"""Writes a run of tools/bench as Markdown, and puts it into docs/measurements.md."""

from typing import NamedTuple

from lib import machine
from lib.benches import Part
from lib.program import TOP
from lib.tables import Table, markdown_lines, wrapped
from lib.tool import Refused, whole

NAME = "docs/measurements.md"
PAGE = TOP / NAME
BEGIN, END = (f"<!-- tools/bench --write: {which} -->" for which in ("begin", "end"))
HOW = (
    "Where a part has several runs, a cell tells their median, with the least and the most after it, and a ratio is taken within a run."
    " Times of `wfplay` and of `wfserve` are processor times; those of `bench_pictures`, of `bench_desk` and of the library for C are by"
    " the clock. Instructions are counted by valgrind, with the forms of memset and memcpy that every processor has."
)


class Section(NamedTuple):
    """Holds what a `part` of a `name` measured: the `items`, which are tables and what was left out, in `runs` and `seconds`."""

    name: str
    part: Part
    items: list
    runs: int
    seconds: float

    def lines(self):
        """Yields the lines of the section."""
        yield f"### {self.part.heading}"
        yield ""
        if any(isinstance(item, Table) for item in self.items):
            runs = f"{self.runs} run" + "s" * (self.runs != 1)
            yield from wrapped(f"`tools/bench {self.name}`, {runs} in {self.seconds:.1f} s. {self.part.about}")
            yield ""
        for number, item in enumerate(self.items):
            yield from [""] * (number > 0)
            yield from markdown_lines(item)


def page_of(sections, begun, ended, words):
    """Returns the Markdown of the `sections` of a run by `words`, between the states `begun` and `ended` of the machine."""
    lines = [*wrapped(machine.told(begun, ended, words, NAME)), "", *wrapped(HOW)]
    for section in sections:
        lines += ["", *section.lines()]
    return "\n".join(lines) + "\n"


def replaced(page, text):
    """Returns a `page` with a `text` in place of what stands between its two markers."""
    head, begin, rest = page.partition(f"{BEGIN}\n")
    _, end, tail = rest.partition(f"{END}\n")
    if not (begin and end) or page.count(BEGIN) != 1 or page.count(END) != 1:
        raise Refused(f"{NAME} does not have the lines {BEGIN} and {END}, once each and in this order")
    return f"{head}{begin}\n{text}\n{end}{tail}"


def write(text, path=PAGE):
    """Puts a `text` between the markers of the page at a `path`."""
    page = replaced(path.read_text(encoding="utf-8"), text)
    with whole(path) as sink:
        sink.write(page.encode("utf-8"))
