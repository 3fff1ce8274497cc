"""Reads the lines of a script, and tells which line made which entry of a journal.

A client's program is its lines in the order of the file. Which events a line makes depends on the answers to this client
alone, by the rules of docs/profile.md, so it can be told for every order in which the clients' events stand, that of serial
play and any other. Nothing here judges a script: the program does.
"""

from typing import NamedTuple, Optional

from lib.film import CODES, OK
from lib.limits import MOST_CONTEXTS, MOST_SIDE

HEADER = "WFS1"
CLIENTS = "01234567"

# What an event is in its line.
CALL = "call"
ACQUIRE = "acquire"
POST = "post"
BEGIN = "begin"
NEXT_CONTEXT = "next context"
PORT = "port"
END = "end"

# The verbs whose answer tells something. That of a line that makes something is a handle, and all others answer 0.
TELLING = ("stat", "error", "derror", "get", "cget", "pget", "lget", "above", "below", "compose", "trycompose")
NEWS = ("post", "commit", "commit_device", "commit_port", "commit_pipe")
NEIGHBOURS = ("above", "below")
NUMBERS = ("get", "cget", "pget", "lget")
ERRORS = ("error", "derror")

# What a commit of a context asks of an element, by the number of the rule.
RULES_OF_A_COMMIT = {
    1: "its source is no live source",
    2: "its source rectangle has no side, or does not lie inside of the stream",
    3: f"a side of its destination is not from 1 to {MOST_SIDE}",
    4: "its mask is no live mask, or not as large as the destination",
}
RULES_OF_A_DISPLAY_COMMIT = {
    1: "the source that it is asked to show is not live",
    2: "its source rectangle has no side, or does not lie inside of the stream",
    3: f"a side of its destination is not from 1 to {MOST_SIDE}",
    4: "it would go over to a port, or from one, that this commit does not take",
}
DISPLAY_COMMITS = ("commit_device", "commit_port", "commit_pipe")


class Line(NamedTuple):
    """A line of a script: its number, what it says, the comment after that, and of an event line who speaks, the name that
    is bound and the verb."""

    number: int
    text: str
    comment: str
    words: list
    client: Optional[int]
    name: Optional[str]
    verb: str


class Step(NamedTuple):
    """What an event is: its line, what it does there, and for a port its number."""

    line: Line
    what: str
    port: int = 0


class Misfit(Exception):
    """A journal is not that of the script: at which entry, counted from 0, that shows, and how."""

    def __init__(self, place, fault):
        super().__init__(f"event {place}: {fault}")
        self.place = place


def line_of(number, text):
    """A line by its number and its text."""
    said, _, comment = text.rstrip("\r").partition("#")
    words = said.split()
    client = int(words[0]) if words and len(words[0]) == 1 and words[0] in CLIENTS else None
    binds = client is not None and words[2:3] == ["="]
    verb = (words[3:4] if binds else words[1:2]) if client is not None else words[:1]
    return Line(number, said.strip(), comment.strip(), words, client, words[1] if binds else None, verb[0] if verb else "")


def lines_of(text, first=1):
    """The lines of a script, whose first has this number in its file."""
    return [line_of(number, line) for number, line in enumerate(text.split("\n"), first)]


def is_script(lines):
    """A text begins as a script does."""
    return lines[0].words == [HEADER]


def ports_of(lines):
    """How many ports a script has."""
    return sum(line.client is None and line.verb == "port" for line in lines)


def setup_of(lines):
    """Answers the numbers of the `lines` before any client but 0 speaks."""
    first = lines[0].number
    return range(first, min((line.number for line in lines if line.client), default=first + len(lines)))


def program(lines, ports):
    """A client's program over its lines: gives the step of each event, and is sent whether it came to something: an Ok for
    an acquire, a post and the like, a frame for a Begin; and the answer's value."""
    holds = False
    for line in lines:
        if line.verb in ("acquire", "frame"):
            if not holds:
                holds, _ = yield Step(line, ACQUIRE)
                if line.verb == "frame" and holds:
                    gone, _ = yield Step(line, POST)
                    holds = not gone
        elif line.verb in ("post", "discard"):
            if holds:
                gone, _ = yield Step(line, CALL)
                holds = not gone
        elif line.verb == "tick":
            yield from tick(line, ports)
        elif line.verb in ("compose", "trycompose"):
            is_frame, _ = yield Step(line, BEGIN)
            if is_frame:
                yield Step(line, END)
        elif line.verb != "paint":
            yield Step(line, CALL)


def tick(line, ports):
    """The part of a program that is a tick: contexts until there is no more, or sixteen times, and then each port."""
    for _ in range(MOST_CONTEXTS):
        is_frame, context = yield Step(line, NEXT_CONTEXT)
        if is_frame:
            yield Step(line, END)
        if context == 0:
            break
    for port in range(1, ports + 1):
        is_frame, _ = yield Step(line, PORT, port)
        if is_frame:
            yield Step(line, END, port)


def reply(step, entry):
    """What a program is sent of an entry."""
    came = entry.code == OK
    if step.what in (NEXT_CONTEXT, PORT):
        came = came and entry.value != 0
    return came, entry.value


class Programs:
    """Has the clients' programs over the `lines` of a script: of each client the step of its next event, or none where it is through."""

    def __init__(self, lines):
        ports = ports_of(lines)
        self.setup = setup_of(lines)
        self.running = {client: program([line for line in lines if line.client == client], ports) for client in range(len(CLIENTS))}
        self.wanted = {client: next(running, None) for client, running in self.running.items()}

    def is_setup_through(self):
        """Answers whether client 0 has no further event before another client speaks."""
        return self.wanted[0] is None or self.wanted[0].line.number not in self.setup

    def answer(self, entry):
        """Goes on after the step of a client that is answered by `entry`."""
        try:
            self.wanted[entry.client] = self.running[entry.client].send(reply(self.wanted[entry.client], entry))
        except StopIteration:
            self.wanted[entry.client] = None


def steps(lines, entries):
    """The step of each entry, one after the other. Raises Misfit where the entries are not those of the clients' lines."""
    programs = Programs(lines)
    for place, entry in enumerate(entries):
        if entry.client and not programs.is_setup_through():
            raise Misfit(place, f"client {entry.client} has no turn before the setup is through")
        if programs.wanted[entry.client] is None:
            raise Misfit(place, f"client {entry.client} has no line that makes it")
        yield programs.wanted[entry.client]
        programs.answer(entry)
    for step in programs.wanted.values():
        if step:
            raise Misfit(len(entries), f"the journal ends, and line {step.line.number} is not through")


class Told(NamedTuple):
    """What is told of an entry: its line, what it does there where the line makes several, what its answer means, and whether
    it is a post or a commit that was answered Ok, which a later frame can show."""

    line: Line
    what: str
    meaning: str
    is_news: bool


class Shown(NamedTuple):
    """The entries, counted from 0, at which a frame of a port began, and at which the newest frame of its screen's context
    before it did, where there was one."""

    port: int
    tick: int
    began: int
    composed: Optional[int]


class Story:
    """What is told of all entries of a journal by its script, and of the frames that the ports showed. Raises Misfit where
    the answers are not such as the lines get."""

    def __init__(self, lines, entries):
        ticks = [line.number for line in lines if line.verb == "tick"]
        self.ticks = {number: tick for tick, number in enumerate(ticks, 1)}
        self.names = {0: "none"}
        self.screens = {}
        self.composed = {}
        self.shown = []
        self.told = [self.tell(place, step, entry) for place, (step, entry) in enumerate(zip(steps(lines, entries), entries))]

    def tell(self, place, step, entry):
        """What is told of an entry."""
        line = step.line
        self.judge(place, step, entry)
        came, value = reply(step, entry)
        if step.what == CALL and came:
            self.make(line, value)
        elif step.what in (NEXT_CONTEXT, BEGIN) and came and value in self.screens:
            self.composed[self.screens[value]] = place
        elif step.what == PORT and came:
            self.shown.append(Shown(step.port, self.ticks[line.number], place, self.composed.get(step.port)))
        is_news = came and (step.what == POST or step.what == CALL and line.verb in NEWS)
        return Told(line, self.what(step, entry), self.meaning(step, entry), is_news)

    def judge(self, place, step, entry):
        """Raises Misfit for an answer that the line can't get: an Ok with another value, or a fault of a commit."""
        line, wanted = step.line, (0,)
        if entry.code != OK:
            if CODES[entry.code] == "Inconsistency" and not line.verb.startswith("commit"):
                raise Misfit(place, f"line {line.number} is not answered {entry.answer()}")
            return
        if step.what == CALL and line.name:
            wanted = (len(self.names),)
        elif step.what == PORT:
            wanted = (0, step.port)
        elif step.what in (NEXT_CONTEXT, BEGIN) or step.what == CALL and line.verb in TELLING:
            return
        if entry.value not in wanted:
            raise Misfit(place, f"line {line.number} is not answered {entry.answer()}")

    def make(self, line, handle):
        """Keeps the name of what a line made."""
        if line.name:
            self.names[handle] = line.name
            if line.verb == "screen" and line.words[-1].isdecimal():
                self.screens[handle] = int(line.words[-1])

    def named(self, handle):
        """An object in words."""
        return self.names.get(handle, f"handle {handle}")

    def of(self, handle):
        """Tells of which object something is, or nothing where no handle tells that."""
        return f" of {self.named(handle)}" if handle else ""

    def what(self, step, entry):
        """What an event does, where its line makes several."""
        if step.what == CALL or step.what == ACQUIRE and step.line.verb == "acquire":
            return ""
        if step.what == NEXT_CONTEXT and entry.value == 0:
            return "no more contexts"
        if step.what in (NEXT_CONTEXT, BEGIN):
            return f"frame of {self.named(entry.value)} begins" if entry.code == OK else f"no frame{self.of(entry.value)} begins"
        if step.what == PORT:
            return f"frame of port {step.port} begins"
        if step.what == END:
            return f"frame of port {step.port} ends" if step.port else "frame ends"
        return step.what

    def meaning(self, step, entry):
        """What an answer means, beyond its code and value."""
        verb, value = step.line.verb, entry.value
        if CODES[entry.code] == "Inconsistency" and verb == "commit":
            place, rule = divmod(value, 16)
            return f"element {place} from the bottom: {RULES_OF_A_COMMIT.get(rule, f'rule {rule}')}"
        if CODES[entry.code] == "Inconsistency" and verb in DISPLAY_COMMITS:
            pipeline, rule = divmod(value, 16)
            return f"pipeline {pipeline}: {RULES_OF_A_DISPLAY_COMMIT.get(rule, f'rule {rule}')}"
        if entry.code != OK or step.what != CALL:
            return ""
        if step.line.name:
            return f"the handle of {step.line.name}"
        if verb in NEIGHBOURS:
            return self.named(value)
        if verb in ERRORS:
            return CODES[value] if value < len(CODES) and value else "no error"
        if verb in NUMBERS and value >= 1 << 31:
            return str(value - (1 << 32))
        return ""


def answers(lines, entries):
    """The answers of each line's events, by the line's number, as scripts say them in comments. Raises Misfit."""
    told = {}
    for step, entry in zip(steps(lines, entries), entries):
        told.setdefault(step.line.number, []).append(entry.answer())
    return {number: ", ".join(each) for number, each in told.items()}
