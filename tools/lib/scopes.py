"""The names that a piece of `.antt` text is about: those that no pattern, no binder and no local definition of it binds."""

import re

TOKEN = re.compile(r'"[^"]*"|[(){}\[\];,]|[^\s(){}\[\];,"]+')
CLOSING = {"(": ")", "{": "}", "[": "]"}
MODIFIERS = ("unfoldable", "abbrev", "pub")
NOT_NAMES = {"=", ":", "→", "|", "↦", "←", "λ", "in", "as", "do", "elim", "record", "where", "open", "use", "_", "Type"}


def tokens_of(lines):
    """Returns the words and brackets of some lines. The point that ends the names of a `λ` is a word of its own."""
    for line in lines:
        for token in TOKEN.findall(re.sub(r"(^|\s)--.*", "", line)):
            if token[0] == '"':
                continue
            if len(token) > 1 and token.endswith(".") and token.strip("."):
                yield token[:-1]
                token = "."
            yield token


def indent_of(line):
    """Returns how far in a line begins."""
    return len(line) - len(line.lstrip())


def begins_item(line, indent):
    """Tells whether a line begins a declaration, where declarations begin this far in."""
    return indent_of(line) == indent and not line.lstrip().startswith(("--", *CLOSING.values()))


def items_of(lines):
    """Returns the declarations of some lines, each with the lines that stand further in than its first one."""
    lines = [line for line in lines if line.strip() and not line.lstrip().startswith("--")]
    items, indent = [], min((indent_of(line) for line in lines), default=0)
    for line in lines:
        if begins_item(line, indent):
            items.append([])
        items[-1].append(line)
    return items


def without_modifiers(tokens):
    """Returns the tokens of a declaration from its own first word on."""
    start = next((place for place, token in enumerate(tokens) if token not in MODIFIERS), len(tokens))
    return tokens[start:]


def is_plain(token):
    """Tells whether a token is a name that a pattern or a binder may bind."""
    return token.isidentifier() and token not in NOT_NAMES


def closing(tokens, place):
    """Returns the place of the bracket that closes the one at `place`, or `place` itself where none is opened there."""
    depth = 0
    for end in range(place, len(tokens)):
        depth += (tokens[end] in CLOSING) - (tokens[end] in CLOSING.values())
        if depth == 0:
            return end
    raise ValueError("a bracket is not closed")


def outside(tokens, wanted, place=0):
    """Returns the place of the first `wanted` token from `place` on that stands in no further bracket."""
    while tokens[place] != wanted:
        place = closing(tokens, place) + 1
    return place


class Names:
    """The names that some text is about. `constructors` are small names that a pattern matches and does not bind."""

    def __init__(self, constructors=()):
        self.constructors, self.found = constructors, set()

    def declarations(self, lines, bound=frozenset()):
        """Reads declarations, which see one another."""
        items = [(item, without_modifiers(list(tokens_of(item)))) for item in items_of(lines)]
        bound = bound | {tokens[0] for _, tokens in items if tokens[1:2] == [":"]}
        for item, tokens in items:
            if tokens[0] in ("record", "data"):
                self._type(item, tokens, bound)
            elif tokens[1:2] == [":"]:
                self.expression(tokens[2:], bound)
            elif tokens[0] != "unfolding":
                self._clause(item, bound)

    def _type(self, item, tokens, bound):
        """Reads a record or a data type, whose fields see those before them."""
        bound = bound | self.expression(tokens[2 : tokens.index("where")], bound)
        first = next(place for place, line in enumerate(item) if line.rstrip().endswith("where"))
        for field in items_of(item[first + 1 :]):
            words = without_modifiers(list(tokens_of(field)))
            self.expression(words[2:], bound)
            bound = bound | {words[0]}

    def _clause(self, item, bound):
        """Reads a clause with what is defined for it after `where`."""
        place = next((place for place, line in enumerate(item) if line.strip() == "where"), len(item))
        local = item[place + 1 :]
        heads = {without_modifiers(list(tokens_of(own)))[0] for own in items_of(local)}
        tokens = list(tokens_of(item[:place]))
        middle = outside(tokens, "=")
        bound = bound | heads | self._pattern(tokens[:middle], bound)
        self.expression(tokens[middle + 1 :], bound)
        self.declarations(local, bound)

    def _pattern(self, tokens, bound):
        """Returns the names that a pattern binds. Constructors are names that it is about."""
        own = {token for token in tokens if is_plain(token) and not token[0].isupper() and token not in self.constructors}
        self.found |= {token for token in tokens if token not in own} - bound
        return own

    def expression(self, tokens, bound):
        """Reads an expression. Returns the names that it binds in what follows it, as those of a signature in its record."""
        began, place = bound, 0
        while place < len(tokens):
            token = tokens[place]
            if token in CLOSING:
                end = closing(tokens, place)
                bound = bound | self._bracket(token, tokens[place + 1 : end], bound)
                place = end
            elif token == "λ":
                end = tokens.index(".", place)
                bound = bound | self._binders(tokens[place + 1 : end], bound)
                place = end
            elif token == "let":
                bound, place = self._let(tokens, place, bound)
            elif tokens[place + 1 : place + 2] == ["←"]:
                bound = bound | {token}
                self.found.add("do")
            elif token in (",", ";"):
                bound = began
            elif token.split(".")[0] not in bound:
                self.found.add(token)
            place += 1
        return bound - began

    def _bracket(self, opening, inside, bound):
        """Reads what stands in brackets. Returns the names that it binds in what follows: those of `(x y : A)`."""
        if opening == "[" and "↦" in inside:
            self._cases(inside, bound)
            return frozenset()
        colon = inside.index(":") if ":" in inside else 0
        if colon and all(is_plain(token) for token in inside[:colon]):
            self.expression(inside[colon + 1 :], bound)
            return frozenset(inside[:colon])
        if opening == "{":
            inside = [token for place, token in enumerate(inside) if inside[place + 1 : place + 2] != ["="]]
        self.expression(inside, bound)
        return frozenset()

    def _cases(self, inside, bound):
        """Reads the cases of an `elim`, each a pattern and what it leads to."""
        inside, start = [*inside, "|"], 0
        while start < len(inside):
            end = outside(inside, "|", start)
            if end > start:
                middle = outside(inside, "↦", start)
                self.expression(inside[middle + 1 : end], bound | self._pattern(inside[start:middle], bound))
            start = end + 1

    def _binders(self, tokens, bound):
        """Reads the names that a `λ` binds, some in brackets with their type. Returns them."""
        own, place = frozenset(), 0
        while place < len(tokens):
            end = closing(tokens, place)
            own = own | (self._bracket(tokens[place], tokens[place + 1 : end], bound | own) if end > place else {tokens[place]})
            place = end + 1
        return own

    def _let(self, tokens, place, bound):
        """Reads `let x : T = e in`. Returns the bound names with its own, and the place of its `in`."""
        equals, end, depth = outside(tokens, "=", place), place, 1
        while depth:
            end += 1
            depth += (tokens[end] == "let") - (tokens[end] == "in")
        self.expression(tokens[place + 2 : equals], bound)
        self.expression(tokens[equals + 1 : end], bound)
        return bound | {tokens[place + 1]}, end
