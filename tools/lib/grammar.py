"""The first fault of a script, by the tables of docs/formats.md and apart from the program that reads scripts."""

import re

from lib.limits import MOST_LINES, MOST_MODES, MOST_NUMBER, MOST_PIPES, MOST_PLACE, MOST_PORTS, MOST_SIDE
from lib.verbs import ATTRIBUTES, CREATIONS, VERBS, WORDS

HEADER = b"WFS1"
NUMBER = re.compile(r"-?[0-9]{1,10}\Z")
UNSIGNED = re.compile(r"[0-9]{1,10}\Z")
NAME = re.compile(r"[a-z][a-z0-9_]{0,15}\Z")
HEX = re.compile(rf"([0-9a-fA-F]{{8}}){{1,{MOST_SIDE}}}\Z")

# The numbers of a paint: the least and the most of each, and whether it may have a sign, as all of x and y may; `pixels` is the word of
# a row.
COLOR = [(0, 255)] * 4
PAINTS = {
    "fill": COLOR,
    "box": [(-MOST_PLACE, MOST_PLACE)] * 2 + [(0, MOST_PLACE)] * 2 + COLOR,
    "checker": [(1, MOST_SIDE)] + COLOR + COLOR,
    "ramp": COLOR + COLOR,
    "row": [(0, MOST_SIDE - 1, True), "pixels"],
}


class Fault(Exception):
    """A line breaks a rule."""

    def __init__(self, rule):
        super().__init__(f"rule {rule}")
        self.rule = rule


def need(holds, rule):
    """Refuses a line by a rule where something does not hold."""
    if not holds:
        raise Fault(rule)


def is_number(word, least=-MOST_NUMBER, most=MOST_NUMBER, has_sign=False):
    """A word is a number of a range. Where the range has no negative number, it has no sign unless it may."""
    form = NUMBER if least < 0 or has_sign else UNSIGNED
    return bool(form.match(word)) and least <= int(word) <= most


def is_name(word):
    """A word is a name."""
    return bool(NAME.match(word)) and word != "none"


def is_of_kind(word, kind):
    """A word is of its kind."""
    if kind == "number":
        return is_number(word)
    if kind == "handle":
        return word == "none" or is_name(word)
    if kind == "pixels":
        return bool(HEX.match(word))
    if isinstance(kind, tuple):
        return is_number(word, *kind)
    return word in WORDS[kind]


def kinds_of(form, words):
    """The kinds of the words of a form, one for each, where the words that say how many there are are known. Else the line is refused:
    by rule 6 where such a word is there, and by rule 5 where it is missing."""
    kinds = []
    for kind in form:
        what, _, of = kind.partition(" ")
        if what == "get":
            kinds += [kind, "number"]
        elif what in ("set", "paint"):
            need(len(words) > len(kinds), 5)
            known = PAINTS if what == "paint" else ATTRIBUTES[of]
            need(words[len(kinds)] in known, 6)
            value = known[words[len(kinds)]]
            kinds.append(kind)
            kinds += value if isinstance(value, list) else ["number"] * value if isinstance(value, int) else [value]
        else:
            kinds.append(kind)
    return kinds


class Reader:
    """What stands before a line."""

    def __init__(self):
        self.ports = 0
        self.has_pipes = self.has_events = self.has_end = False
        self.in_setup = True
        self.names = {client: set() for client in range(8)}
        self.of_setup = set()

    def line(self, raw):
        """Reads a line after the first, or refuses it."""
        raw = raw[:-1] if raw.endswith(b"\r") else raw
        need(all(byte == 9 or 0x20 <= byte <= 0x7E for byte in raw), 1)
        words = [word for word in re.split(r"[ \t]+", raw.decode("ascii").partition("#")[0]) if word]
        if not words:
            return
        first = words[0]
        is_event = len(first) == 1 and first in "01234567"
        need(is_event or first in ("port", "pipes", "end"), 2)
        if is_event:
            self.event(int(first), words[1:])
            return
        if first == "port":
            need(not (self.has_pipes or self.has_events or self.has_end or self.ports == MOST_PORTS), 4)
            need(2 <= len(words) <= 1 + MOST_MODES, 5)
            for word in words[1:]:
                sides = word.split("x")
                need(len(sides) == 2 and all(is_number(side, 1, MOST_SIDE) for side in sides), 6)
            self.ports += 1
            return
        need(self.ports > 0 and not self.has_end, 4)
        if first == "pipes":
            need(not (self.has_pipes or self.has_events), 4)
            need(len(words) == 2, 5)
            need(is_number(words[1], 0, MOST_PIPES), 6)
            self.has_pipes = True
        else:
            need(len(words) == 1, 5)
            self.has_end = True

    def sees(self, client, name):
        """A client sees a name."""
        return name in self.names[client] or name in self.of_setup

    def event(self, client, words):
        """Reads an event line after its client."""
        binds = words[1:2] == ["="]
        name, words = (words[0], words[2:]) if binds else (None, words)
        need(words and words[0] in (CREATIONS if binds else VERBS), 3)
        verb, words = words[0], words[1:]
        need(self.ports > 0 and not self.has_end and (verb != "tick" or client == 0), 4)
        kinds = kinds_of((CREATIONS if binds else VERBS)[verb], words)
        need(len(words) == len(kinds), 5)
        need(name is None or is_name(name), 6)
        for word, kind in zip(words, kinds):
            what, _, of = str(kind).partition(" ")
            need(word in ATTRIBUTES[of] if what == "get" else what in ("set", "paint") or is_of_kind(word, kind), 6)
        self.in_setup = self.in_setup and client == 0
        used = [word for word, kind in zip(words, kinds) if kind == "handle" and word != "none"]
        need(all(self.sees(client, word) for word in used), 7)
        need(name is None or not self.sees(client, name), 7)
        if name is not None:
            (self.of_setup if self.in_setup else self.names[client]).add(name)
        self.has_events = True


def first_fault(text):
    """The number of the first line that breaks a rule, and the least rule that it breaks; or None."""
    lines = text.split(b"\n")
    if not lines[-1]:
        lines.pop()
    first = lines[0] if lines else b""
    first = first[:-1] if first.endswith(b"\r") else first
    if not all(byte == 9 or 0x20 <= byte <= 0x7E for byte in first) or first.partition(b"#")[0].split() != [HEADER]:
        return 1, 0
    reader = Reader()
    for number, line in enumerate(lines[1:], 2):
        if number > MOST_LINES:
            return number, 9
        try:
            reader.line(line)
        except Fault as fault:
            return number, fault.rule
    return None if reader.has_end else (len(lines) + 1, 8)
