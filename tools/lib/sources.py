"""A file of `src/`: its types, as definitions speak of them, and the clauses of its functions."""

import re
from collections import namedtuple
from functools import cache

from lib.definitions import CRATES, Definition, Imports
from lib.scopes import Names, closing, tokens_of

USE = re.compile(r"^(?:pub )?use ([\w:]+?)(?:::\{(.*)\})?;$")
TYPE = re.compile(r"pub(?:\(crate\))? (?:struct|enum|type) (\w+)")
CLAUSE = re.compile(r"\b(?:requires|ensures) (\w+ )?(?=\{)")
# A type in a module of a crate's `src/`, which may only hand it on.
TypePlace = namedtuple("TypePlace", "crate way name")


class Source:
    """A file of `src/` with its imports, both of definitions and of types."""

    def __init__(self, path):
        self.path, self.lines = path, path.read_text(encoding="utf-8").splitlines()
        self.imports, self.types = Imports(self.lines), {}
        for module, items in (found.groups() for found in map(USE.match, self.lines) if found):
            start, _, last = module.rpartition("::")
            self.types.update({item.strip(): module for item in items.split(",")} if items else {last: start})
        heads = [(found[1], place) for place, found in enumerate(map(TYPE.match, self.lines)) if found]
        self.own = {name: self._read(name, place) for name, place in heads}

    def _read(self, name, place):
        """Returns the type that begins at `place`, with the comment above it."""
        first, last = place, place
        while self.lines[first - 1].startswith(("///", "#[")):
            first -= 1
        while not self.lines[place].endswith((";", "}")) and self.lines[last] != "}":
            last += 1
        return Definition(self.path, name, first + 1, self.lines[first : last + 1])

    def words(self, definition):
        """Returns what a value of a type is made of: the words of its model, where it has one, or else the types of its fields."""
        model = re.compile(rf"impl(?:<.*>)? Model for {definition.name}\b")
        start = next((place for place, line in enumerate(self.lines) if model.match(line)), None)
        if start is not None:
            return set(tokens_of([next(line for line in self.lines[start:] if "ghost Value" in line)]))
        text = "\n".join(line for line in definition.lines if not line.lstrip().startswith(("//", "#[")))
        return set(re.findall(r"\b[A-Z]\w*", text)) - {definition.name}

    def clauses(self, function, wanted):
        """Returns the words of the clauses of the functions of this name, of the clause `wanted` or of all where that is `*`, with the
        types of the values that they speak of."""
        words, text = set(), "\n".join(self.lines)
        for found in re.finditer(rf"\bfn {function}\b.*?^ *(?:\{{\}}?|\}}|[^\n]*;)$", text, re.DOTALL | re.MULTILINE):
            clauses = [clause for clause in CLAUSE.finditer(found[0]) if wanted in ("*", (clause[1] or "").strip())]
            head = found[0][: next(CLAUSE.finditer(found[0])).start()] if clauses else ""
            if "self" in head:
                head += re.findall(r"^impl.*?(\w+)(?:<.*>)? \{$", text[: found.start()], re.MULTILINE)[-1]
            words.update(re.findall(r"\b[A-Z]\w*", head))
            for clause in clauses:
                tokens = list(tokens_of(re.sub(r"//.*", "", found[0][clause.end() :]).splitlines()))
                names = Names()
                names.expression(tokens[1 : closing(tokens, 0)], frozenset(re.findall(r"(\w+):(?!:)", head)))
                words |= names.found
        return words

    def origin(self, word):
        """Returns the type that a word of this file names, or where it comes from, or None."""
        name, _, rest = word.partition(".")
        if name in self.imports.names:
            module, own = self.imports.names[name]
            return module, own or rest.partition(".")[0]
        return self.origin_of_type(name)

    def origin_of_type(self, name):
        """Returns the type of this name that stands here, or where it comes from, or None."""
        if name in self.own or name not in self.types:
            return self.own.get(name)
        return TypePlace(*self._way(*self.types[name].split("::")), name)

    def _way(self, first, *rest):
        """Returns the crate and the module there of an import that begins with `first`."""
        crate = self.path.relative_to(CRATES).parts[0]
        if first == "crate":
            return crate, rest
        return (crate, (first, *rest)) if path_in(crate, (first,)).is_file() else (first, rest)


@cache
def source_of(path):
    """Returns the file of `src/` at `path`, read once."""
    return Source(path)


def path_in(crate, way):
    """Returns the path of a module of a crate, which may be none."""
    return CRATES.joinpath(crate, "src", *way).with_suffix(".rt") if way else CRATES / crate / "src/lib.rt"
