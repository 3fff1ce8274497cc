"""Files of cases of cases_machine, as lib/names.py answers their calls. What lies in images and in scenes it does not know."""

import re

from lib.limits import MOST_SIDE
from lib.model import CODES, bytes_of
from lib.names import Counted, job_of

FORMATS = ("rgba", "pre", "rgbx", "a8")
BEGINS = ("begin_next", "begin_port", "begin_context")
# What tells of images and scenes, and changes nothing; and what changes a Job's images by hand, or plays many calls.
LOOKS = ("canvas", "job", "scene", "layer", "content")
CHANGES = ("swap", "spare", "put", "pop", "round")
NUMBER = re.compile(r"-?\d+")
REPEATED = re.compile(r"(\d+) times (.*)")


def are_sides(width, height):
    """Whether an image may have these sides."""
    return 1 <= width <= MOST_SIDE and 1 <= height <= MOST_SIDE


class Player:
    """A machine of two pipelines, and what its client holds: the canvas and the Job, by what stands in them beside pixels."""

    def __init__(self):
        self.machine = None
        self.canvas = None
        self.job = None

    def answer(self, call):
        """The answer to a line."""
        words = [int(word) if NUMBER.fullmatch(word) else word for word in call.split()]
        if words[0] == "ports":
            _, width, height, ports = words
            is_made = are_sides(width, height)
            self.machine = Counted([[(width, height)]] * (ports if ports in (1, 2) else 4), 2) if is_made else None
            self.canvas = self.job = None
            return "done"
        if self.machine is None:
            return "no ports"
        what = getattr(self, f"by_{words[0]}", None)
        return what(words[1:]) if what else self.called(words)

    def called(self, words, is_denied=False):
        """The answer to a call."""
        verb, given = words[0], words[1:]
        if verb in ("post", "discard"):
            if self.canvas is None:
                return "not done"
            given = self.canvas
        elif verb == "end":
            if self.job is None:
                return "not done"
            given = self.job
        code, value = self.machine.call(verb, given, is_denied)
        if code == 0:
            self.hold(verb, given)
        return f"{CODES[code]} {value}"

    def hold(self, verb, given):
        """Keeps what comes with an answer, and lets go what went with the call."""
        if verb in BEGINS and self.machine.frame:
            self.job = job_of(self.machine.frame)
        elif verb == "end":
            self.job = None
        elif verb in ("post", "discard"):
            self.canvas = None
        elif verb == "acquire":
            stream = self.machine.live[given[0]]
            self.canvas = (stream.number, stream.form, stream.w, stream.h)

    # Lines that are no calls.

    def by_count(self, words):
        if not all(isinstance(word, int) and 1 <= word < 2**32 for word in words):
            return "no such number"
        return " ".join(str(self.machine.counts[word]) for word in words)

    def by_held(self, _):
        return f"{len(self.machine.streams)} {sum(map(bytes_of, self.machine.streams))}"

    def by_ready(self, words):
        return "true" if words[0] not in BEGINS or self.machine.frame is None else "false"

    def by_denied(self, words):
        return self.called(words, is_denied=True)

    def by_forge(self, words):
        number, form, width, height = words
        is_made = are_sides(width, height)
        self.canvas = (number, form if form in FORMATS else "a8", width, height) if is_made else None
        return "done" if is_made else "not done"

    def by_fill(self, _):
        return "done" if self.canvas else "not done"

    def by_number(self, words):
        return self.changed_job(words[0], *(self.job or (0,))[1:])

    def by_port(self, words):
        return self.changed_job(*(self.job or (0,))[:1], words[0])

    def by_context(self, words):
        return self.changed_job(*(self.job or (0,))[:1], *words)

    def changed_job(self, *job):
        """The Job that is held is another one."""
        if self.job is None:
            return "not done"
        self.job = job
        return "done"

    def by_paint(self, _):
        return "done" if self.job else "not done"


def cases_of(path):
    """The cases of a file, each with its line, the answer that is wanted and the model's: up to a change that it does not know, and without
    looks at what it does not know."""
    player = Player()
    for line in path.read_text(encoding="utf-8").splitlines():
        call, _, want = line.strip().rpartition(" = ")
        if not call or call.startswith("#") or call.split()[0] in LOOKS:
            continue
        repeated = REPEATED.fullmatch(call)
        count, call = (int(repeated[1]), repeated[2]) if repeated else (1, call)
        if call.split()[0] in CHANGES:
            return
        for _ in range(count):
            came = player.answer(call)
        yield line.strip(), want.strip(), came
