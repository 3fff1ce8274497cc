"""What happens at the display in each turn of an order, and the log of it, by docs/profile.md and docs/formats.md and apart from the
program. The order is played again by lib/replay.py, so it may be that of any film."""

from typing import NamedTuple

from lib.names import Counted
from lib.replay import Replay
from lib.script import DISPLAY_COMMITS, Step


class Watched(Counted):
    """Tells what happened at the display in its last call, beside what the machine does."""

    def __init__(self, ports, pipes):
        super().__init__(ports, pipes)
        self.happened = []

    def call(self, verb, words, is_denied=False):
        bound = self.bound_by(verb, words)
        attached = [port.attached for port in self.ports]
        kept = list(self.streams)
        code, value = super().call(verb, words, is_denied)
        self.happened = []
        if code == 0 and (verb != "begin_port" or value != 0):
            self.happened += [f"bind {number}" for number in bound]
        if code == 0 and verb == "attach" and attached[words[0] - 1] != words[1]:
            self.happened.append(f"attach {words[0]} {words[1]}")
        released = sum(stream not in self.streams for stream in kept)
        self.happened += [f"released {released}"] * (released > 0)
        return code, value

    def bound_by(self, verb, words):
        """Answers the numbers of the pipelines that the call of a `verb` with `words` binds where it comes to something: those of a commit
        that ask for `now`, and those of a port whose frame begins at which a binding waits, of no source too."""
        if verb in DISPLAY_COMMITS:
            bound = [pipe for pipe in self.taken_by(verb, words) if pipe.request and pipe.request[1] == "now"]
        elif verb == "begin_port":
            bound = [pipe for pipe in self.pipes if pipe.committed["port"] == words[0] and pipe.pending is not None]
        else:
            bound = []
        return [number for number, pipe in enumerate(self.pipes, 1) if pipe in bound]


class Moment(NamedTuple):
    """A turn of an order: its place, counted from 0, its step, what happened in it, and the replay right after it."""

    place: int
    step: Step
    happened: list
    replay: Replay

    @property
    def line(self):
        """Answers the number of its line."""
        return self.step.line.number


def moments(lines, order, kind=Watched):
    """Plays the `order` of a script's `lines` on a machine of a `kind`, and gives its turns one after another. Raises Misfit where it is
    none."""
    replay = Replay(lines, kind)
    for place, step in enumerate(replay.play(order)):
        yield Moment(place, step, replay.machine.happened, replay)


def log(lines, order, depth):
    """Answers the log of the `order` of a script's `lines`, by a queue of `depth` entries. Raises Misfit where it is no order of them."""
    turns = list(moments(lines, order))
    last = {turn.line: turn.place for turn in turns if turn.step.line.verb == "tick"}
    emptied = {*last.values(), len(turns) - 1}
    text, queue, lost = "", [], 0
    for turn in turns:
        for what in turn.happened:
            if len(queue) < depth:
                queue.append(f"{turn.place} {what}\n")
            else:
                lost += 1
        if turn.place in emptied:
            text += "".join(queue) + (f"lost {lost}\n" if lost else "")
            queue, lost = [], 0
    return text
