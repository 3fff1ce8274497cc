"""What has to be read to believe a definition or a clause: all that its words stand on."""

from functools import cache

from lib.crates import uses
from lib.definitions import CRATES, Definition, file_of, path_of
from lib.sources import TypePlace, path_in, source_of

# Parts of a module's name that name no file of `src/`.
INNER = ("TheVariants", "TheInside", "TheConstants")


@cache
def found(origin):
    """Returns the definition or the type that stands at `origin`, or None where it is not the repository's."""
    if origin is None or isinstance(origin, Definition):
        return origin
    if isinstance(origin, TypePlace):
        path = path_in(origin.crate, origin.way)
        return found(source_of(path).origin_of_type(origin.name)) if path.is_file() else None
    module, name = origin
    crate, _, *way = module.split(".")
    if way[:1] == ["declared"]:
        way = [part for part in way[1:] if part not in INNER]
        return found(TypePlace(crate, tuple(way[:-1]), way[-1])) if way else None
    path = path_of(module)
    return found(file_of(path).origin(name)) if path.is_file() else None


def text_of(definition):
    """Returns the file that a definition or a type stands in."""
    return file_of(definition.path) if definition.path.suffix == ".antt" else source_of(definition.path)


@cache
def named_by(definition):
    """Returns the definitions and types that `definition` names, itself left out."""
    file = text_of(definition)
    others = {other.key: other for other in map(found, map(file.origin, file.words(definition))) if other}
    others.pop(definition.key, None)
    return [others[key] for key in sorted(others)]


@cache
def kit_names(definition):
    """Returns the names of the kit that `definition` names, without operators."""
    file = text_of(definition)
    origins = [file.origin(word) for word in file.words(definition)]
    return {origin[1] for origin in origins if is_of_kit(origin)}


def is_of_kit(origin):
    """Tells whether an origin is a definition of the kit, whose name is no operator."""
    return type(origin) is tuple and not (CRATES / origin[0].split(".")[0]).is_dir() and bool(origin[1]) and "◌" not in origin[1]


def closure(starts):
    """Returns `starts` and all definitions and types that they stand on."""
    seen, left = {}, list(starts)
    while left:
        definition = left.pop()
        if definition.key not in seen:
            seen[definition.key] = definition
            left += named_by(definition)
    return list(seen.values())


def definitions_of(name, crates="*"):
    """Returns the definitions of this name in some crates."""
    files = map(file_of, sorted(CRATES.glob(f"{crates}/specs/*.antt")))
    return [file.definitions[name] for file in files if name in file.definitions]


def named_by_clauses(function, clause, crates="*"):
    """Returns the definitions that the clauses of a function name, of a clause or, for `*`, of all."""
    sources = map(source_of, sorted(CRATES.glob(f"{crates}/src/**/*.rt")))
    origins = [(source, word) for source in sources for word in source.clauses(function, clause)]
    return [own for own in (found(source.origin(word)) for source, word in origins) if own]


def by_file(definitions):
    """Returns the files of some definitions, each with its own by their lines: the lowest crate's first, and in a crate each file after
    those that it stands on."""
    files, ordered, crates = {}, [], list(uses())
    for own in sorted(definitions, key=lambda own: own.key):
        files.setdefault(own.path, []).append(own)
    seen = set()

    def visit(path):
        if path not in seen:
            seen.add(path)
            for other in sorted({other.path for own in files[path] for other in named_by(own)} & set(files)):
                visit(other)
            ordered.append(path)

    for path in sorted(files, key=lambda path: (crates.index(path.relative_to(CRATES).parts[0]), path)):
        visit(path)
    return {path: files[path] for path in ordered}
