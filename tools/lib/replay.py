"""An order of a film that is played again, by docs/profile.md and docs/formats.md and apart from the program: on a machine of
lib/names.py, whose frames run while other calls come, so it may be any order; an order at random; and what a check finds of a film."""

import io

from lib.film import CODES, Entry, Film, NoFilm
from lib.names import Counted, job_of
from lib.pictures import Canvas
from lib.player import Names, Shown, declared, film, painted
from lib.script import ACQUIRE, BEGIN, END, NEXT_CONTEXT, PORT, POST, Misfit, Programs, lines_of, setup_of, steps

OUT_OF_MEMORY = CODES.index("OutOfMemory")
# How many of the creations of an order at random get no memory.
REFUSED = 0.03
BEGINS = ("begin_next", "begin_context", "begin_port")


class Replay:
    """Plays the `lines` of a script in an order, on a machine of a `kind`: each turn is the call of its line. Where it `paints`, it has the
    frames that are shown too."""

    def __init__(self, lines, kind=Counted, paints=False):
        self.machine = kind(*declared([line.words for line in lines]))
        self.lines = lines
        self.names = Names()
        self.setup = setup_of(lines)
        self.ticks = {line.number: tick for tick, line in enumerate((line for line in lines if line.verb == "tick"), 1)}
        self.paints = paints
        self.turns = []
        self.frames = []
        self.held = {}
        self.canvases = {}
        self.jobs = {}
        self.after = 0

    def play(self, order):
        """Plays the entries of an `order`, clients with codes and values, one after another, and gives the step of each. Raises Misfit at
        the first that is not its client's turn, and at the end where a program is not through."""
        entries = [Entry(*entry) for entry in order]
        for step, entry in zip(steps(self.lines, entries), entries):
            self.turn(step, entry)
            yield step

    def call_of(self, step, client):
        """Answers the verb and the words of the call of a `step` of a `client`."""
        line = step.line
        words = line.words[4:] if line.name else line.words[2:]
        if step.what == NEXT_CONTEXT:
            return "begin_next", [self.after]
        if step.what == PORT:
            return "begin_port", [step.port]
        if step.what == END:
            return "end", self.jobs[client]
        if step.what == POST or line.verb in ("post", "discard"):
            return "post" if step.what == POST else line.verb, self.held[client]
        if step.what == ACQUIRE:
            return "acquire", self.names.read(client, line.verb, words[:1])
        read = self.names.read(client, line.verb, words)
        return ("begin_context" if step.what == BEGIN else line.verb), read

    def is_waiting(self, step):
        """Answers whether the call of a `step` begins a frame, and has to wait for the one that runs."""
        is_begin = step.what in (NEXT_CONTEXT, PORT) or step.what == BEGIN and step.line.verb != "trycompose"
        return is_begin and self.machine.frame is not None

    def turn(self, step, entry):
        """Plays the turn of a `step`, whose answer has to be `entry`. Raises Misfit where it is another one."""
        place, number = len(self.turns), step.line.number
        if self.is_waiting(step):
            raise Misfit(place, f"line {number} waits for the frame that runs")
        came = self.answer(step, entry.client, entry.code == OUT_OF_MEMORY)
        if came != entry:
            raise Misfit(place, f"line {number} is answered {came.answer()}, and not {entry.answer()}")

    def answer(self, step, client, is_denied=False):
        """Makes the call of a `step` of a `client`, to which memory `is_denied` or not, and keeps the answer. Answers its entry."""
        line = step.line
        verb, words = self.call_of(step, client)
        if self.paints and verb == "post":
            self.machine.image = self.drawn(client, line)
        if self.paints and verb == "end":
            self.machine.image = painted(*self.machine.shown)
        entry = Entry(client, *self.machine.call(verb, words, is_denied))
        self.turns.append(entry)
        if entry.code == 0:
            self.keep(verb, words, step, entry)
        elif line.name:
            self.names.bind(client, line.name, 0, line.number in self.setup)
        if verb in ("begin_next", "begin_port"):
            self.after = entry.value if verb == "begin_next" else 0
        return entry

    def keep(self, verb, words, step, entry):
        """Keeps what the client of a `step` has by an `entry` with Ok, to the call of a `verb` with `words`: a name, a canvas or a Job."""
        client, line = entry.client, step.line
        if line.name:
            self.names.bind(client, line.name, entry.value, line.number in self.setup)
        if verb == "acquire":
            stream = self.machine.live[words[0]]
            self.held[client] = (stream.number, stream.form, stream.w, stream.h)
            self.canvases[client] = (stream, line.number)
        if verb in BEGINS and entry.value:
            self.jobs[client] = job_of(self.machine.frame)
        if verb == "begin_port" and entry.value and self.paints:
            scene, images = self.machine.shown
            shown = painted(scene, images)
            self.frames.append(Shown(step.port, self.ticks[line.number], len(self.turns) - 1, scene.w, scene.h, shown))

    def drawn(self, client, line):
        """Answers the image that a `client` posts in a `line`: all that it painted since the line that took its canvas."""
        stream, first = self.canvases[client]
        canvas = Canvas(stream)
        for other in self.lines:
            if other.client == client and other.verb == "paint" and first < other.number < line.number:
                canvas.paint(other.words[2:])
        if line.verb == "frame":
            canvas.paint(line.words[3:])
        return bytes(canvas.pixels)


def serial(lines):
    """Plays the `lines` of a script in the order of the file, without pictures. Answers the order."""
    programs, replay = Programs(lines), Replay(lines)
    while any(programs.wanted.values()):
        _, client = min((step.line.number, client) for client, step in programs.wanted.items() if step)
        programs.answer(replay.answer(programs.wanted[client], client))
    return replay.turns


def shuffled(text, chance):
    """Plays the script `text` in an order at random, by `chance`: each turn is that of any client that may have it, and some creations get
    no memory. Answers the play."""
    lines = lines_of(text)
    programs, replay = Programs(lines), Replay(lines, paints=True)
    while True:
        clients = [client for client, step in programs.wanted.items() if step and not replay.is_waiting(step)]
        clients = clients if programs.is_setup_through() else [0]
        if not clients:
            return replay
        client = chance.choice(clients)
        programs.answer(replay.answer(programs.wanted[client], client, chance.random() < REFUSED))


def verdict(text, data):
    """Answers the exit status and the notes of a check of a film, `data`, after the script `text`."""
    replay = Replay(lines_of(text), paints=True)
    try:
        read = Film(io.BytesIO(data))
        for _ in replay.play(list(read.entries())):
            pass
    except NoFilm as fault:
        return 9, f"bad film at {fault.place}: rule {fault.rule}\n"
    except Misfit as misfit:
        return 8, f"bad order at entry {misfit.place}\n"
    made = film(replay, read.form)
    if made == data:
        return 0, "same\n"
    differs = (at for at, (one, other) in enumerate(zip(made, data)) if one != other)
    return 7, f"differs at {next(differs, min(len(made), len(data)))}\n"
