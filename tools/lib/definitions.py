"""The definitions of a file of `specs/`, and where its names come from."""

import re
from functools import cache
from pathlib import Path

from lib.scopes import Names, begins_item, indent_of, tokens_of, without_modifiers

TOP = Path(__file__).resolve().parent.parent.parent
CRATES = TOP / "crates"

IMPORT = re.compile(r"^\s*(?:ghost |unfoldable |pub )*use Rattle\.([\w.]+?)(?:\.\{(.*)\}| as (\S+?))?;?$")
# What begins no definition.
OTHERS = ("use", "mod", "infix", "infixl", "infixr", "ruleset", "unfolding")


class Definition:
    """A definition of `specs/` or a type of `src/`: its name, its first line, its lines with the comment above them, and the heads of
    the modules that it stands in."""

    def __init__(self, path, name, first, lines, heads=()):
        self.path, self.name, self.first, self.lines, self.heads = path, name, first, lines, heads

    @property
    def key(self):
        return self.path, self.first

    @property
    def last(self):
        return self.first + len(self.lines) - 1

    @property
    def size(self):
        """The number of its lines, without comments, attributes and blank ones."""
        return sum(1 for line in self.lines if line.strip() and not line.lstrip().startswith(("--", "//", "#[")))

    def words(self, constructors):
        """Returns the words that it is about, as they stand in its file."""
        names, bound = Names(constructors), frozenset()
        for head in self.heads:
            bound = bound | names.expression(head, bound)
        names.declarations(self.lines, bound | {self.name})
        return names.found


class Imports:
    """Where each name comes from that a file imports: its module and its name there, or None for the name of a module."""

    def __init__(self, lines):
        self.names, self.operators = {}, {}
        for line in lines:
            found = IMPORT.match(line)
            if found:
                self._read(*found.groups())

    def _read(self, module, items, alias):
        if items is None:
            self.names[alias or module.rpartition(".")[2]] = (module, None)
            return
        for item in items.split(","):
            own, _, other = item.strip().partition(" as ")
            self.names[other or own] = (module, own)
            self.note_operator(other or own)

    def note_operator(self, name):
        """Notes the words of a name that stands between its operands, as `◌>>=◌`. A `do` stands for `>>=`."""
        for part in filter(None, name.split("◌")):
            if "◌" in name:
                self.operators[part] = name
                self.operators["do" if part == ">>=" else part] = name


class File:
    """A file of `specs/`: its definitions in order, the constructors of its data types, and its imports."""

    def __init__(self, path):
        self.path, self.definitions, self.constructors = path, {}, {}
        self.lines = path.read_text(encoding="utf-8").splitlines()
        self.imports = Imports(self.lines)
        self._read(0, len(self.lines), ())

    def _read(self, first, last, heads):
        """Reads the definitions of the lines from `first` to before `last`, which stand in modules of these heads."""
        places = [place for place in range(first, last) if self.lines[place].strip()]
        indent = min((indent_of(self.lines[place]) for place in places), default=0)
        starts = [place for place in places if begins_item(self.lines[place], indent)]
        own = None
        for start, end in zip(starts, starts[1:] + [last]):
            end = self._end_of(end)
            tokens = without_modifiers(list(tokens_of(self.lines[start:end])))
            if tokens[0] == "module":
                body = next(place for place in range(start, end) if self.lines[place].rstrip().endswith("where")) + 1
                self._read(body, end, (*heads, list(tokens_of(self.lines[start:body]))[2:-1]))
            elif tokens[0] in ("record", "data") or tokens[1:2] == [":"]:
                own = self._keep(tokens[1] if tokens[0] in ("record", "data") else tokens[0], start, end, heads)
                if tokens[0] == "data":
                    self._keep_constructors(own, start, end)
            elif tokens[0] not in OTHERS:
                own.lines = self.lines[own.first - 1 : end]

    def _is_comment(self, place):
        return self.lines[place].lstrip().startswith("--")

    def _end_of(self, end):
        """Returns where a declaration ends in front of another one, to which the comment above it belongs."""
        while not self.lines[end - 1].strip() or self._is_comment(end - 1):
            end -= 1
        return end

    def _keep(self, name, start, end, heads):
        """Keeps the definition that begins at `start`, and returns it."""
        first = start
        while first > 0 and self._is_comment(first - 1) and indent_of(self.lines[first - 1]) == indent_of(self.lines[start]):
            first -= 1
        self.definitions[name] = Definition(self.path, name, first + 1, self.lines[first:end], heads)
        self.imports.note_operator(name)
        return self.definitions[name]

    def _keep_constructors(self, own, start, end):
        for line in self.lines[start + 1 : end]:
            words = without_modifiers(list(tokens_of([line])))
            if words[1:2] == [":"]:
                self.constructors[words[0]] = own

    def words(self, definition):
        """Returns the words that a definition of this file is about."""
        imported = {name for name, (module, own) in self.imports.names.items() if own in constructors_of(module)}
        return definition.words(imported | set(self.constructors))

    def origin(self, word):
        """Returns the definition that a word of this file names, or its module and its name there, or None."""
        name, _, rest = word.partition(".")
        name = self.imports.operators.get(name, name)
        if name in self.definitions or name in self.constructors:
            return self.definitions.get(name) or self.constructors[name]
        module, own = self.imports.names.get(name, (None, None))
        return (module, own or rest.partition(".")[0]) if module else None


@cache
def file_of(path):
    """Returns the file at `path`, read once."""
    return File(path)


def path_of(module):
    """Returns the path of a module of `specs/`, which may be none."""
    return CRATES.joinpath(*module.split(".")).with_suffix(".antt")


def constructors_of(module):
    """Returns the constructors of the data types of a module, of none where it is not the repository's."""
    path = path_of(module)
    return file_of(path).constructors if path.is_file() else {}
