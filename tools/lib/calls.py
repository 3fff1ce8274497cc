"""The table of calls, crates/calls.table: its rows, and what is wrong with them."""

import re
from dataclasses import dataclass, field

from lib.crates import TOP

TABLE = TOP / "crates/calls.table"
PARTS = ("streams", "buffers", "composition", "display", "begin", "end")
WAITS = ("never", "canvas", "frame", "job")
# What a row may say below it, by what it is; the first ones have to stand there.
SAYS = {"kind": [], "attribute": ["says"], "call": ["does", "line", "model", "method", "denial", "sees"], "line": ["says"], "paint": []}
RANGE = re.compile(r"(-?\w+)\.\.(\w+)")


class Wrong(Exception):
    """The table says something that none of its rows may say."""


@dataclass
class Kind:
    """A kind of arguments: its type in the code, the words of what it may be as an argument of a message, and the names of these words."""

    name: str
    type: str
    words: list
    names: list = field(default_factory=list)

    @property
    def is_attribute(self):
        return self.words == ["attributes"]

    @property
    def variant(self):
        """Returns its name as a variant of the enum of kinds."""
        return self.name.capitalize()

    @property
    def range(self):
        """Returns the ends of its range as words, or none where it is no range."""
        found = RANGE.fullmatch(self.words[0])
        return found.groups() if found else None


@dataclass
class Attribute:
    """An attribute of an object, with its word, its name in the code, what it is set to, and its number."""

    object: str
    word: str
    name: str
    value: str
    number: int
    says: str


@dataclass
class Call:
    """A call, or with no name a line of scripts that is no one call."""

    word: str
    name: str
    arguments: list
    is_creation: bool = False
    subject: str = ""
    part: str = ""
    waits: str = ""
    number: int | None = None
    texts: dict = field(default_factory=dict)

    @property
    def own(self):
        """Returns the name in small letters, as functions and definitions have it."""
        return re.sub(r"(?<!^)([A-Z])", r"_\1", self.name).lower()

    @property
    def is_line(self):
        """Returns whether the word is one of scripts."""
        return not self.word.startswith("(")

    @property
    def brings(self):
        """Returns the argument that is a write buffer or a Job, where there is one."""
        return next((name for name, kind in self.arguments if kind in ("canvas", "job")), None)

    def text(self, key, otherwise):
        """Returns the words below the row for `key`, or else one word."""
        return self.texts.get(key, otherwise).split()


@dataclass
class Table:
    """All rows, in order."""

    kinds: dict
    attributes: list
    calls: list
    lines: list
    paints: list

    @property
    def messages(self):
        """Returns the calls and the paints that are messages, by their numbers."""
        return sorted((call for call in self.calls + self.paints if call.number is not None), key=lambda call: call.number)

    def attributes_of(self, name):
        """Returns the attributes of an object."""
        return [attribute for attribute in self.attributes if attribute.object == name]


def need(holds, why):
    """Refuses the table where something does not hold."""
    if not holds:
        raise Wrong(why)


def pairs(words):
    """Returns arguments as pairs of a name and a kind."""
    return [tuple(word.split(":")) for word in words if word != "-"]


def logical(text):
    """Yields each row as its words and what stands below it, by the word that this begins with."""
    rows = []
    for place, line in enumerate(text.splitlines(), 1):
        depth = len(line) - len(line.lstrip())
        if not line.strip() or line.startswith("#"):
            continue
        if depth == 0:
            rows.append((place, line.split(), {}))
        elif depth < 8:
            need(rows, f"line {place} says more of no row")
            key, _, more = line.strip().partition(" ")
            need(key not in rows[-1][2], f"line {place}: `{key}` stands twice")
            rows[-1][2][key] = more.strip()
        else:
            need(rows and rows[-1][2], f"line {place} goes on with no text")
            rows[-1][2][next(reversed(rows[-1][2]))] += " " + line.strip()
    return rows


def kind_of(name, of, *words):
    """Returns the kind of a row."""
    split = [word.partition("/") for word in words]
    return Kind(name, of, [word for word, _, _ in split], [own or word.capitalize() for word, _, own in split])


def call_of(words, texts):
    """Returns the call of a row."""
    word, makes = words[0], words[1] == "="
    name, *arguments, subject, part, waits, number = words[2 if makes else 1 :]
    need(arguments, f"{name}: its arguments are missing, or a `-` for none")
    number = None if number == "-" else int(number)
    return Call(word, name, pairs(arguments), makes, subject, part, waits, number, texts)


def read(text):
    """Returns the table of a text, or refuses it."""
    table = Table({}, [], [], [], [])
    for place, (what, *words), texts in logical(text):
        need(what in SAYS, f"line {place}: `{what}` is no row")
        need(set(texts) <= set(SAYS[what]), f"line {place}: below it stands {sorted(set(texts) - set(SAYS[what]))}")
        need(set(SAYS[what][:1]) <= set(texts), f"line {place}: {SAYS[what][:1]} is missing below it")
        try:
            if what == "kind":
                table.kinds[words[0]] = kind_of(*words)
            elif what == "attribute":
                table.attributes.append(Attribute(*words[:4], int(words[4]), texts["says"]))
            elif what == "call":
                table.calls.append(call_of(words, texts))
            elif what == "paint":
                table.paints.append(Call("", words[0], pairs(words[1:-1]), number=int(words[-1])))
            else:
                table.lines.append(Call(words[0], "", pairs(words[1:]), texts={"line": texts["says"]}))
        except (TypeError, ValueError, IndexError):
            raise Wrong(f"line {place}: a word is missing or more than the row's") from None
    judge(table)
    return table


def twice(names):
    """Returns the first name that stands twice, or none."""
    names = [name for name in names if name is not None]
    return next((name for place, name in enumerate(names) if name in names[:place]), None)


def judge(table):
    """Refuses a table in which something has no meaning, or one that it shares with another."""
    for kind in table.kinds.values():
        is_told = len(kind.words) > 1 or kind.words and (kind.words[0] in ("any", "attributes", "none") or kind.range)
        need(is_told, f"{kind.name}: what it may be is missing, or no range")
    for call in table.calls + table.lines + table.paints:
        at = call.name or call.word
        need(all(len(pair) == 2 and pair[1] in table.kinds for pair in call.arguments), f"{at}: an argument is of no kind")
        need(twice([name for name, _ in call.arguments]) is None, f"{at}: two arguments have one name")
    for call in table.calls:
        need(re.fullmatch(r"[A-Z][A-Za-z]*", call.name), f"{call.name}: is no name of a call")
        need(call.part in PARTS, f"{call.name}: `{call.part}` is no part")
        need(call.waits in WAITS, f"{call.name}: `{call.waits}` is no rule of waiting")
        need(not call.is_line or "line" in call.texts, f"{call.name}: `line` is missing below it")
        need((call.part == "begin") == (call.waits == "frame"), f"{call.name}: what begins a frame may wait for the running one")
    for attribute in table.attributes:
        owner = table.kinds.get(attribute.object)
        need(owner and owner.is_attribute, f"{attribute.object} {attribute.word}: `{attribute.object}` has no attributes")
        need(attribute.value.isdigit() or attribute.value in table.kinds, f"{attribute.object} {attribute.word}: a value of no kind")
    for what, names in (
        ("the word", [call.word for call in table.calls + table.lines]),
        ("the name", [call.name for call in table.calls + table.paints]),
        ("the number", [call.number for call in table.calls + table.paints]),
    ):
        need(twice(names) is None, f"{what} {twice(names)} stands twice")
    numbers = [call.number for call in table.messages]
    need(numbers == list(range(1, len(numbers) + 1)), "the messages are not numbered from 1 on")
    for kind in (kind for kind in table.kinds.values() if kind.is_attribute):
        own = table.attributes_of(kind.name)
        need(sorted(attribute.number for attribute in own) == list(range(len(own))), f"{kind.name}: its attributes are not numbered from 0")
        need(twice([attribute.word for attribute in own]) is None, f"{kind.name}: a word stands twice")


def table():
    """Returns the table of the repository."""
    return read(TABLE.read_text(encoding="utf-8"))
