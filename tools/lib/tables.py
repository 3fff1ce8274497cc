"""Writes tables of what was measured: as plain text for people, and as Markdown."""

import statistics
import textwrap
from typing import NamedTuple

# The most characters of a line of a paragraph.
WIDE = 130


class Table(NamedTuple):
    """Holds a table: a `caption` that says what its rows are, the `heads` of its columns, and its `rows`, each of as many texts."""

    caption: str
    heads: tuple
    rows: list


class Left(NamedTuple):
    """Says `what` was left out, and `why`, and whether that `is_fault` of a program."""

    what: str
    why: str
    is_fault: bool = False

    def told(self):
        """Returns the sentence that says so."""
        return f"Not measured: {self.what}, since {self.why}."


def spread(values, by=1, digits=2):
    """Returns the median of `values` with the least and the most of them, each taken `by` times and told with as many `digits`; one value
    stands alone."""
    told = [f"{value * by:,.{digits}f}" for value in (statistics.median(values), min(values), max(values))]
    return told[0] if len(values) == 1 else f"{told[0]} ({told[1]} to {told[2]})"


def wrapped(text):
    """Returns the lines of a `text` as a paragraph."""
    return textwrap.wrap(text, WIDE, break_long_words=False, break_on_hyphens=False)


def text_lines(item):
    """Yields the lines that tell a table or what was left out, an `item`, in columns."""
    if isinstance(item, Left):
        yield item.told()
        return
    lines = [item.heads, *item.rows]
    widths = [max(map(len, column)) for column in zip(*lines)]
    yield from wrapped(item.caption)
    for line in lines:
        yield "    " + "   ".join(cell.ljust(width) for cell, width in zip(line, widths)).rstrip()


def markdown_row(cells):
    """Returns the line of Markdown that has these `cells`."""
    return "| " + " | ".join(cell.replace("|", "\\|") for cell in cells) + " |"


def markdown_lines(item):
    """Yields the lines of Markdown that tell a table or what was left out, an `item`."""
    if isinstance(item, Left):
        yield from wrapped(item.told())
        return
    yield from wrapped(item.caption)
    yield ""
    yield markdown_row(item.heads)
    yield "|---" * len(item.heads) + "|"
    yield from map(markdown_row, item.rows)
