"""The first rule that a script breaks, in words: which word of the line it is, what may stand there, and the form of the call.

Whether a script is refused, and by which rule, the program decides where it is built, and else lib/grammar.py, which tools/try-model
compares with it. What may stand in a place is found by that reader: it reads the line with one word changed, more or less."""

import contextlib
import copy
import difflib
import re
from functools import cached_property

from lib.calls import table
from lib.calls_pages import LETTERS, forms
from lib.encoding import text_of, wrong_byte, wrong_file
from lib.grammar import PAINTS, Fault as Broken, Reader, first_fault
from lib.limits import MOST_LINES, MOST_NUMBER, MOST_PORTS, MOST_SCRIPT, MOST_SIDE
from lib.program import PROGRAM, printed_bytes
from lib.script import CLIENTS, HEADER, lines_of
from lib.tool import Refused
from lib.verbs import ATTRIBUTES, CREATIONS, VERBS, WORDS

RULES = {
    0: "the first line is not the header, which is WFS1 alone",
    1: "a byte is neither a tab, nor printed ASCII, nor the carriage return that ends the line",
    2: "the first word is not port, pipes, end or a client from 0 to 7",
    3: "the verb is missing or unknown, lacks the name that it binds, or has a name and binds none",
    4: "the line stands in a place where it may not stand",
    5: "the number of words is not that of the form",
    6: "a word is not of its kind, or not in its range",
    7: "a name that is used is not visible here, or one that is bound is visible already",
    8: "the script ends without the line end",
    9: f"a script has at most {MOST_LINES:,} lines",
}
SIZE = f"a width and a height as 320x240, each from 1 to {MOST_SIDE:,}"
PIXELS = f"8 hexadecimal digits for each pixel, red, green, blue and alpha, of at most {MOST_SIDE:,} pixels"
IS_SIZE = re.compile(r"\d+x\d+")
COMMAS = re.compile(r"[^,]+,.*")
COMMENT = "a comment, which begins with #"
COMMENT_FOLLOWS = "what follows # is a comment"
# How comments begin in other languages.
OTHER_COMMENTS = ("//", ";", "--", "/*", "%")
DECLARED = ("port", "pipes", "end")
NOTE = re.compile(r"line (\d+): rule (\d+)\n")
FILM_AFTER_END = re.compile(r"[ \t]*end[ \t\r]*(WFF[12])")
FILMS = ("WFF1", "WFF2")
# A name that no script has, as far as that goes.
FRESH = "name_of_none"
FLAGS = ("alpha", "source", "mask")
PAINT_FORMS = {"fill": "r g b a", "box": "x y w h r g b a", "checker": "n r g b a r g b a", "ramp": "r g b a r g b a", "row": "y hex"}
# What is made by a verb, where that is not the verb's own word, and what an argument names, where that is not the argument's own name.
MADE = {"queue": "stream", "screen": "context", "offscreen": "context", "wsource": "source"}
ARGUMENTS = {"below": "element"}
MOST_NAMES = 12
# How many letters of a line are shown.
MOST_SHOWN = 120
TABLE = table()
CALLS = {call.word: call for call in TABLE.calls + TABLE.lines if call.is_line}


class Fault:
    """The first rule that a script breaks, and the line with its words and where each begins."""

    def __init__(self, data, number, rule):
        self.data = data
        self.lines = text_of(data).split("\n")
        self.number = number
        self.rule = rule
        self.line = self.lines[number - 1] if number <= len(self.lines) else ""
        said, mark, _ = self.line.partition("#")
        self.has_comment = bool(mark)
        self.words = [(found.start(), found.group()) for found in re.finditer(r"\S+", said)]
        self.said = [word for _, word in self.words]
        self.end = len(said.rstrip())
        self.reader = self._reader() if number > 1 else None

    def _reader(self):
        """Returns the reader as it stands before the line."""
        reader = Reader()
        for line in self.lines[1 : self.number - 1]:
            # The program has read these lines, whatever this reader says of them.
            with contextlib.suppress(Broken):
                reader.line(line.encode("utf-8"))
        return reader

    @property
    def verb_at(self):
        """Returns the place of the verb, or of the word of a declaration."""
        return 3 if self.said[2:3] == ["="] else 1 if self.said and self.said[0].isdecimal() else 0

    @property
    def verb(self):
        """Returns the verb, or nothing where the line has none."""
        return self.said[self.verb_at] if self.verb_at < len(self.said) else ""

    @property
    def call(self):
        """Returns the call of the verb as the table has it, or none."""
        return CALLS.get(self.verb) if self.verb_at else None

    def column(self, place):
        """Returns where a word begins, or where the next one would."""
        return self.words[place][0] if place < len(self.words) else self.end + bool(self.words)

    @cached_property
    def kinds(self):
        """Returns what each name that a line before binds stands for."""
        lines = lines_of("\n".join(self.lines[: self.number - 1]))
        return {line.name: MADE.get(line.verb, line.verb) for line in lines if line.name}

    @cached_property
    def visible(self):
        """Returns the names that the line's client sees."""
        client = self.said[0]
        return self.reader.of_setup | (self.reader.names[int(client)] if client in tuple(CLIENTS) else set())

    def breaks(self, words):
        """Returns the rule that the line breaks with these words in its place, or none."""
        reader = copy.copy(self.reader)
        # What a line binds goes into these.
        reader.names, reader.of_setup = {client: set(own) for client, own in reader.names.items()}, set(reader.of_setup)
        try:
            reader.line(" ".join(words).encode("utf-8"))
        except Broken as broken:
            return broken.rule
        return None

    def helps(self, words):
        """Returns whether the line with these words breaks no rule, or one that is looked at later."""
        broken = self.breaks(words)
        return broken is None or broken > self.rule

    def changed(self, place, word):
        """Returns the words with another one in a place."""
        return [*self.said[:place], word, *self.said[place + 1 :]]


def fault_of(data):
    """Returns the first fault of a script, or none."""
    if len(data) > MOST_SCRIPT:
        raise Refused(f"the script has {len(data):,} bytes, and at most {MOST_SCRIPT:,} are read")
    if not PROGRAM.is_file():
        found = first_fault(data)
        return Fault(data, *found) if found else None
    status, notes = printed_bytes(data)
    told = NOTE.fullmatch(notes)
    if status == 0:
        return None
    if not told:
        raise Refused(notes.strip() or f"the program ended with {status}")
    return Fault(data, int(told[1]), int(told[2]))


def one_of(what, words):
    """Returns words of a kind as a sentence has them."""
    return f"one of the {what}s {', '.join(words)}" if len(words) > 1 else f"the {what} {words[0]}"


def near(word, known):
    """Returns the words that are nearest to one, in whatever case it is."""
    return difflib.get_close_matches(word.lower(), sorted(known), 3)


# The form of a line.


def form_of(fault):
    """Returns the form of the line, as docs/formats.md has it, or nothing where its verb is unknown."""
    if fault.verb == "port":
        return "port WxH .., with up to four modes"
    if fault.verb in ("pipes", "end"):
        return {"pipes": "pipes N", "end": "end"}[fault.verb]
    if not fault.call:
        return ""
    form = forms(fault.call, TABLE).replace("`", "")
    return form + value_form(fault)


def value_form(fault):
    """Returns what stands after the word of an attribute or of a paint in its line, in words."""
    place = next((n for n, (_, kind) in enumerate(fault.call.arguments) if TABLE.kinds[kind].is_attribute or kind == "paint"), None)
    word = fault.said[fault.verb_at + 1 + place] if place is not None and fault.verb_at + 1 + place < len(fault.said) else ""
    kind = fault.call.arguments[place][1] if word else ""
    if kind == "paint":
        return f", where P is {word} {PAINT_FORMS[word]}" if word in PAINT_FORMS else ""
    says = next((own.says for own in TABLE.attributes if (own.object, own.word) == (kind, word)), None)
    sets = any(other == "values" for _, other in fault.call.arguments)
    return f", where {word} is set to {says.replace('`', '')}" if says and sets else ""


# Names, and what each of them stands for.


def wanted_at(fault, place):
    """Returns what an argument of the line's call names, or nothing where it is no name."""
    at = place - fault.verb_at - 1
    arguments = fault.call.arguments if fault.call else []
    if 0 <= at < len(arguments) and arguments[at][1] == "handle":
        return ARGUMENTS.get(arguments[at][0], arguments[at][0])
    return ""


def names_at(fault, place):
    """Returns the names that may stand in a place: those of the kind that is wanted there, where there are some."""
    is_none = ["none"] if fault.helps(fault.changed(place, "none")) else []
    # Where one name fits, all fit that are seen.
    if not any(fault.helps(fault.changed(place, name)) for name in list(fault.visible)[:1]):
        return is_none
    wanted = wanted_at(fault, place)
    return sorted(([name for name in fault.visible if fault.kinds.get(name) == wanted] or list(fault.visible)) + is_none)


def told_names(fault, place):
    """Returns the names that may stand in a place in words, the nearest alone where there are many of them."""
    named = names_at(fault, place)
    if len(named) > MOST_NAMES:
        close = near(fault.said[place], named)
        return [f"one of {len(named):,} names" + (f", perhaps {' or '.join(close)}" if close else "")]
    return [one_of("name", named)] if named else []


def without_device(fault):
    """Returns whether the call wants a device first, and the line begins with what stands after it."""
    arguments = [ARGUMENTS.get(name, name) for name, _ in fault.call.arguments] if fault.call else []
    first = [fault.kinds.get(word) for word in fault.said[fault.verb_at + 1 : fault.verb_at + 2]]
    return arguments[:1] == ["device"] and arguments[1:2] == first


def elsewhere(fault, name):
    """Returns where a name is bound that is not visible in the line, in words, or nothing."""
    line = next((line for line in lines_of(text_of(fault.data)) if line.name == name), None)
    if line is None:
        return ""
    if line.number > fault.number:
        return f"line {line.number} binds {name}, which is further on"
    return (f"line {line.number} binds {name} for client {line.client} alone: all clients see the names that client 0 binds before any "
            "other client speaks")


# What may stand in a place.


def farthest(accepts, first, limit):
    """Returns the farthest number from one that is accepted on, up to a limit."""
    low, step = first, 1 if limit > first else -1
    while low != limit:
        far = low + step if abs(step) < abs(limit - low) else limit
        if not accepts(far):
            break
        low, step = far, step * 2
    else:
        return limit
    out = low + step if abs(step) < abs(limit - low) else limit
    while abs(out - low) > 1:
        middle = (low + out) // 2
        if accepts(middle):
            low = middle
        else:
            out = middle
    return low


def numbers_at(fault, place):
    """Returns the numbers that may stand in a place, in words, or none."""
    accepts = lambda number: fault.helps(fault.changed(place, str(number)))
    first = next((number for number in (1, 0, 2, 8) if accepts(number)), None)
    if first is None:
        return []
    low, high = farthest(accepts, first, -MOST_NUMBER), farthest(accepts, first, MOST_NUMBER)
    return [f"a number from {low:,} to {high:,}" if low < high else f"the number {low}"]


def vocabulary():
    """Returns the words of the grammar that stand after a verb."""
    attributes = {word for own in ATTRIBUTES.values() for word in own}
    return sorted(attributes | {word for own in WORDS.values() for word in own} | set(PAINTS))


def reordered(fault, place):
    """Returns the parts of a transparency in the order in which they may stand, or nothing."""
    parts = re.split(r"[+|,]", fault.said[place])
    word = "+".join(flag for flag in FLAGS if flag in parts)
    return word if set(parts) <= set(FLAGS) and fault.helps(fault.changed(place, word)) else ""


def expected_at(fault, place):
    """Returns what may stand in a place of a line that breaks rule 6 or 7, in words; nothing where no word helps."""
    ordered = reordered(fault, place)
    if ordered:
        return [f"the same in this order: {ordered}"]
    if fault.helps(fault.changed(place, "1x1")):
        return [SIZE]
    named = told_names(fault, place)
    if fault.helps(fault.changed(place, FRESH)):
        return named or ["a name"]
    words = [word for word in vocabulary() if word not in fault.visible and word != "none"]
    words = [word for word in words if fault.helps(fault.changed(place, word))]
    # Where any name may stand, so may `none`; where a few words may, it is one of them.
    if words and named == ["the name none"]:
        words, named = sorted([*words, "none"]), []
    return numbers_at(fault, place) + ([one_of("word", words)] if words else []) + named


# The place of the mistake, and what is told of it, rule by rule.


def header_mistake(fault):
    """Rule 0: what the file is, or what its first line has."""
    wrong = wrong_file(fault.data)
    if wrong:
        return [], [wrong]
    return [fault.column(0)], [f"{HEADER}, in capitals and alone in the first line, with no line before it"]


def byte_mistake(fault):
    """Rule 1: the first byte that may not stand there."""
    film = FILM_AFTER_END.match(fault.line)
    if film:
        return [film.start(1)], ["a film begins here, and a line feed is missing in front of it, which ends the script's last line"]
    if fault.line.startswith(FILMS):
        return [0], ["a film begins here, and a script stands alone in its file"]
    said = fault.line.removesuffix("\r")
    bad = next((at for at, char in enumerate(said) if not (char == "\t" or " " <= char <= "~")), len(said))
    return [bad], [wrong_byte(fault.data, said[bad], bad + 1)] if bad < len(said) else []


def first_mistake(fault):
    """Rule 2: the first word."""
    word, rest = fault.said[0], fault.said[1:]
    if word.startswith(OTHER_COMMENTS):
        return [fault.column(0)], [COMMENT]
    if word in CALLS or rest[:1] == ["="]:
        return [fault.column(0)], [f"a client from 0 to 7 in front, as 0 {' '.join(fault.said)}"]
    close = near(word, DECLARED)
    return [fault.column(0)], [f"perhaps {' or '.join(close)}" if close else "port, pipes, end or a client from 0 to 7"]


def verb_mistake(fault):
    """Rule 3: the verb, or the name that it lacks or has in vain."""
    said, verb = fault.said, fault.verb
    if not verb:
        return [fault.column(fault.verb_at)], ["a verb" + (f"; {COMMENT_FOLLOWS}" if fault.has_comment else "")]
    if verb.startswith(OTHER_COMMENTS):
        return [fault.column(fault.verb_at)], [COMMENT]
    if said[2:3] == ["="] and verb in VERBS:
        return [fault.column(1)], [f"{verb} makes nothing, so no name and no = stand in front of it"]
    if verb in CREATIONS:
        return [fault.column(fault.verb_at)], [f"{verb} makes something, so NAME = stands in front of it"]
    if said[2:3] and said[2] in CREATIONS:
        return [fault.column(2)], [f"= in front of {said[2]}: {said[0]} {verb} = {' '.join(said[2:])}"]
    name, is_joined, rest = " ".join(said[1:]).partition("=")
    if is_joined and said[2:3] != ["="]:
        return [fault.column(1)], [f"= as a word of its own: {said[0]} {name.strip()} = {rest.strip()}"]
    return [fault.column(fault.verb_at)], near_verbs(verb)


def near_verbs(word):
    """Returns the verbs that a misspelled one may mean, in words, with the form of each."""
    plain = word.replace("_", "").lower()
    named = [call for call in CALLS.values() if call.name.lower() == plain]
    close = named or [CALLS[verb] for verb in near(word, CALLS)]
    told_forms = [forms(call, TABLE).replace("`", "") for call in close]
    return [f"perhaps {' or '.join(told_forms)}" if close else "a verb, of which docs/formats.md has the table"]


def place_mistake(fault):
    """Rule 4: why the line may not stand where it does."""
    first, reader = fault.said[0], fault.reader
    if reader.has_end:
        told = "nothing, since the script ends before this line"
    elif not reader.ports and first != "port":
        told = "a port, as port 320x240, before anything else"
    elif first == "port" and reader.ports == MOST_PORTS:
        told = f"no port more: a script has at most {MOST_PORTS}"
    elif first == "port":
        told = "no port: ports stand before pipes and before the first event line"
    elif first == "pipes":
        told = "no pipes: it stands once, before the first event line"
    else:
        told = "0 tick, since the clock is client 0's"
    return [fault.column(0)], [told]


def count_mistake(fault):
    """Rule 5: the first word that is too many, or how many are missing."""
    said = fault.said
    for count in range(len(said) - 1, fault.verb_at, -1):
        if said[count].startswith(OTHER_COMMENTS):
            return [fault.column(count)], [COMMENT]
    for more in range(1, 24):
        if any(fault.helps([*said, *[word] * more]) for word in ("1", "1x1")):
            after = f"; {COMMENT_FOLLOWS}" if fault.has_comment else ""
            return [fault.column(len(said))], [f"{more} more word{'s' * (more > 1)}{after}"]
    for count in range(len(said) - 1, fault.verb_at, -1):
        if fault.helps(said[:count]):
            return [fault.column(count)], ["nothing more"]
    return [fault.column(fault.verb_at)], []


def unknown_word(fault):
    """Returns the place of the word of an attribute or of a paint where it is none, and those that there are, or nothing."""
    for place, kind in enumerate(VERBS.get(fault.verb, []), fault.verb_at + 1):
        what, _, of = kind.partition(" ")
        known = ATTRIBUTES[of] if what in ("set", "get") else PAINTS if what == "paint" else None
        if known and place < len(fault.said) and fault.said[place] not in known:
            return place, sorted(known)
    return None


def word_mistake(fault):
    """Rules 6 and 7: the word that is wrong, and what may stand there. A name that is bound twice wants another one."""
    said = fault.said
    if said[2:3] == ["="] and fault.helps(fault.changed(1, FRESH)):
        return [fault.column(1)], ["a name that is not bound yet, of a lower-case letter and at most 15 more letters, digits or _"]
    unknown = unknown_word(fault)
    if unknown:
        place, known = unknown
        fitting = [word for word in known if fault.helps(fault.changed(place, word))]
        return [fault.column(place)], [one_of("word", fitting or known)]
    places = range(fault.verb_at + 1, len(said))
    for place in reversed(places):
        expected = expected_at(fault, place)
        if expected:
            where = elsewhere(fault, said[place]) if fault.rule == 7 else ""
            return [fault.column(place)], expected[:-1] + [expected[-1] + (f"; {where}" if where else "")]
    if fault.verb == "port":
        return [fault.column(place) for place in places if not IS_SIZE.fullmatch(said[place])], [SIZE]
    if fault.verb in ("paint", "frame") and said[-3:-2] == ["row"]:
        return [fault.column(len(said) - 1)], [PIXELS]
    return [fault.column(place) for place in places], []


def device_mistake(fault):
    """Rules 5 to 7: the device that is missing in front of the other arguments."""
    devices = sorted(name for name, kind in fault.kinds.items() if kind == "device")
    return [fault.column(fault.verb_at + 1)], [f"a device in front of {fault.said[fault.verb_at + 1]}, as {devices[0] if devices else 'd'}"]


MISTAKES = {
    0: header_mistake,
    1: byte_mistake,
    2: first_mistake,
    3: verb_mistake,
    4: place_mistake,
    5: count_mistake,
    6: word_mistake,
    7: word_mistake,
}


def apart_mistake(fault):
    """Rules 5 and 6: words that stand apart otherwise than by spaces: by commas, or a width and a height by an x. Nothing where that is not
    what is wrong."""
    for sign, pattern in ((",", COMMAS), ("x", IS_SIZE)):
        places = [place for place, word in enumerate(fault.said) if pattern.fullmatch(word)]
        words = " ".join(word.replace(sign, " ") if place in places else word for place, word in enumerate(fault.said)).split()
        if places and fault.helps(words):
            return [fault.column(place) for place in places], [f"words apart by spaces alone: {' '.join(words)}"]
    return None


def mistake(fault):
    """Returns the columns of the words that are wrong, and what is told of them."""
    if fault.rule in (5, 6, 7) and without_device(fault):
        return device_mistake(fault)
    apart = apart_mistake(fault) if fault.rule in (5, 6) else None
    if apart:
        return apart
    return MISTAKES[fault.rule](fault) if fault.rule in MISTAKES else ([], [])


def shown(line, carets):
    """Returns the part of a line around the words that are wrong, with carets under them. What is not printed is a question mark."""
    start = max(0, min(carets) - MOST_SHOWN // 2) if len(line) > MOST_SHOWN else 0
    part = line[start : start + MOST_SHOWN].ljust(max(carets) + 1 - start)
    under = ["^" if start + at in carets else "\t" if char == "\t" else " " for at, char in enumerate(part)]
    seen = [char if char.isprintable() or char == "\t" else "?" for char in part]
    return "".join(seen).rstrip(), "".join(under).rstrip()


def told(fault):
    """Yields the lines that tell a fault."""
    yield f"line {fault.number} breaks rule {fault.rule}: {RULES.get(fault.rule, 'there is no such rule')}"
    carets, expected = mistake(fault)
    if carets:
        yield from (f"    {line}" for line in shown(fault.line.removesuffix("\r"), carets))
    if expected:
        yield ("" if fault.rule in (0, 1) else "expected here: ") + ", or ".join(expected)
    form = form_of(fault) if fault.rule in (3, 5, 6, 7) else ""
    if form:
        yield f"the form is {form}"
