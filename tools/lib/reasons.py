"""Why calls of a script were refused, in words with the names of what they mean, and what its author may have forgotten. Both are found
by playing an order again on the machine of lib/happenings.py."""

from typing import NamedTuple

from lib.grammar import first_fault, is_name
from lib.happenings import Watched, moments
from lib.model import CALLED
from lib.script import Line, Misfit


class Speaker:
    """Puts the reasons of a replay's machine into words, by the names that its script gives to handles."""

    def __init__(self, replay):
        self.replay = replay
        self.names = {}

    def learn(self, line, entry):
        """Keeps the name of what a line made."""
        if line.name and entry.code == 0:
            self.names[entry.value] = line.name

    def why(self, line, client):
        """Returns why the last call was refused, which a line of a client made."""
        text, things = self.replay.machine.why
        return text.format(*(self.word(thing, line, client) for thing in things))

    def word(self, thing, line, client):
        """Returns a thing in words, or a handle of nothing that is live."""
        if isinstance(thing, int):
            return f"{self.names.get(thing, f'handle {thing}')} (destroyed)" if thing else self.nothing(line, client)
        machine = self.replay.machine
        if thing is None:
            return "none"
        if thing.kind == "pipe":
            return f"pipeline {machine.pipes.index(thing) + 1}"
        port = next((number for number, port in enumerate(machine.ports, 1) if port.screen is thing), 0)
        return f"the screen of port {port}" if port else f"{CALLED.get(thing.kind, thing.kind)} {self.names.get(thing.handle, thing.handle)}"

    def nothing(self, line, client):
        """Returns the name in a line that stands for nothing, since what should make it was refused, or `none`."""
        names, words = self.replay.names, line.words[4:] if line.name else line.words[2:]
        known = names.of_setup | names.values[client]
        lost = next((word for word in words if is_name(word) and known.get(word) == 0), None)
        if lost is None:
            return "none"
        maker = max(other.number for other in self.replay.lines if other.name == lost and other.client in (0, client))
        return f"{lost} (line {maker} was refused)"


class Reasons(NamedTuple):
    """Of each turn of an order what happened in it and why it was refused, up to the first that the machine answers otherwise, and how it
    does, or nothing. It is not known of any turn where a line breaks a rule."""

    turns: list
    whys: list
    fault: str


def reasons(lines, order):
    """Tells of the turns of the `order` of a script's `lines`, which may be no script."""
    broken = first_fault("\n".join(line.text for line in lines).encode("utf-8", "replace"))
    if broken:
        return Reasons([], [], "line {}: rule {}".format(*broken))
    turns, whys, speaker = [], [], None
    try:
        for moment in moments(lines, order):
            speaker = speaker or Speaker(moment.replay)
            entry = moment.replay.turns[-1]
            speaker.learn(moment.step.line, entry)
            turns.append(moment.happened)
            whys.append(speaker.why(moment.step.line, entry.client) if entry.code else "")
    except Misfit as misfit:
        return Reasons(turns, whys, str(misfit))
    return Reasons(turns, whys, "")


# What an author may have forgotten.


class Noted(Watched):
    """Keeps what was done with each thing, by handles: contexts that were activated or composed and that were committed, elements that were
    inserted and that a commit showed inside or outside of their picture, and streams of which an image was posted."""

    def __init__(self, ports, pipes):
        super().__init__(ports, pipes)
        self.composed, self.committed, self.inserted, self.inside, self.outside, self.posted = set(), set(), set(), set(), {}, set()

    def call(self, verb, words, is_denied=False):
        stream = self.finished_by(verb, words)
        code, value = super().call(verb, words, is_denied)
        if code == 0:
            self.note(verb, words, stream)
        return code, value

    def finished_by(self, verb, words):
        """Answers the handle of the stream of which a call finishes an image, or 0."""
        if verb == "post":
            return next((stream.handle for stream in self.streams if stream.number == words[0]), 0)
        return self.frame.context.target.handle if verb == "end" and self.frame.context else 0

    def note(self, verb, words, stream):
        """Keeps what a call did."""
        self.posted.add(stream)
        if verb in ("activate", "begin_context"):
            self.composed.add(words[1])
        elif verb == "insert":
            self.inserted.add(words[1])
        elif verb == "commit":
            self.committed.add(words[1])
            self.note_places(self.live[words[1]])

    def note_places(self, context):
        """Keeps which elements of a context lie inside of its picture, and of the others how large that is."""
        width, height = context.target.w, context.target.h
        if context.rotation in (90, 270):
            width, height = height, width
        for element in context.order:
            x, y, w, h = element.has["dest"]
            is_inside = x < width and y < height and x + w > 0 and y + h > 0
            if is_inside:
                self.inside.add(element.handle)
            else:
                self.outside[element.handle] = f"{x} {y} {w} {h} in a picture of {width} by {height}"


def warnings(lines, order):
    """Yields what the author of a script may have forgotten, each with its line, by an order. Raises Misfit where that is none of the
    script."""
    made, answered, machine = [], {}, None
    for moment in moments(lines, order, Noted):
        machine, line, entry = moment.replay.machine, moment.step.line, moment.replay.turns[-1]
        answered.setdefault(line.number, []).append(entry)
        if line.name and entry.code == 0:
            made.append((line, entry.value))
    for line, handle in made:
        yield from (f"line {line.number}: {told}" for told in forgotten(machine, line, handle))
    for line, why in silent(lines, answered):
        yield f"line {line.number} {'paints nothing' if line.verb == 'paint' else 'makes no event'}: {why}"


def forgotten(machine, line, handle):
    """Yields what was never done with what a line made."""
    if line.verb in ("screen", "offscreen"):
        if handle not in machine.composed:
            yield f"context {line.name} is never activated and never composed, so no frame of it begins"
        if handle not in machine.committed:
            yield f"context {line.name} is never committed, so it shows no element"
    elif line.verb == "element":
        if handle not in machine.inserted:
            yield f"element {line.name} is never inserted, so no commit shows it"
        elif handle in machine.outside and handle not in machine.inside:
            yield f"element {line.name} is shown wholly outside: {machine.outside[handle]}"
    elif line.verb in ("stream", "queue") and handle not in machine.posted:
        yield f"nothing is posted to stream {line.name}, so it has no image"


class Silent(NamedTuple):
    """A line that makes no event where others of its verb make one, or a paint that paints nothing, and why."""

    line: Line
    why: str


def silent(lines, answered):
    """Yields the lines that make no event in an order, by the entries that each made in it, by its number."""
    for client in range(8):
        held, lost = 0, "it has taken none"
        for line in lines:
            got = answered.get(line.number, [])
            if line.client != client or line.verb not in ("acquire", "frame", "post", "discard", "paint"):
                continue
            if line.verb in ("acquire", "frame"):
                if not got:
                    yield Silent(line, f"client {client} holds the write buffer that it took in line {held}")
                elif got[0].code:
                    lost = f"line {line.number} was answered {got[0].answer()}"
                elif line.verb == "acquire" or got[-1].code:
                    held = line.number
                else:
                    lost = f"line {line.number} posted the last one"
            elif not held:
                yield Silent(line, f"client {client} holds no write buffer: {lost}")
            elif got and got[0].code == 0:
                held, lost = 0, f"line {line.number} gave the last one back"
