"""Plays a script as the window manager of a live system, docs/live.md: each line asks the core, and each `tick` waits for the next tick."""

import sys

from lib.film import CODES
from lib.live import code_name
from lib.living import LIVE
from lib.player import Names
from lib.session import PAINT_WORDS
from lib.verbs import CREATIONS
from lib.wire import TABLE

sys.path.insert(0, str(LIVE))

from wfclient import OUTPUT, Client  # noqa: E402
from words import KEY, word_of  # noqa: E402

BY_WORD = {message.word: message for message in TABLE.messages if message.word and message.is_line}
PAINTS = {PAINT_WORDS.get(message.name, message.name.lower()): message.name for message in TABLE.paints}
BEGINS = ("compose", "trycompose")
OK = CODES.index("Ok")
# The keys that a player hears, by their numbers in X11.
STOP, STEP, END = ord(" "), ord("n"), ord("q")


class Ended(Exception):
    """Somebody asked for the end."""


def arguments_of(message, words):
    """Returns the arguments of a `message` by the `words` behind a verb: four numbers are one argument."""
    found, rest = [], list(words)
    for _, kind in message.arguments:
        if kind == "values":
            found.append(rest)
        elif kind != "canvas":
            found.append(rest.pop(0))
    return found


class Played:
    """A script that is played over a connection, on which one of its clients holds a write buffer at a time. `ticks` is called for a tick,
    and `tells` gets each line's number, its text and its answers."""

    def __init__(self, client, ticks, tells):
        self.client = client
        self.ticks = ticks
        self.tells = tells
        self.names = Names()
        self.streams = {}
        self.holder, self.held = None, None
        self.in_setup = True

    def play(self, text):
        """Plays the lines of a script."""
        for number, line in enumerate(text.split("\n"), 1):
            words = line.partition("#")[0].split()
            if words and words[0] in tuple("01234567"):
                self.tells(number, " ".join(words), self.line(int(words[0]), words[1:]))

    def line(self, client, words):
        """Plays a line of a client of the script. Returns its answers: code and value of each."""
        self.in_setup = self.in_setup and client == 0
        name, words = (words[0], words[2:]) if words[1:2] == ["="] else (None, words)
        verb, words = words[0], words[1:]
        if verb == "tick":
            return [(OK, self.ticks())]
        if verb == "paint":
            return self.paint(client, words)
        if verb == "frame":
            found = self.acquire(client, words[:1])
            return found if self.holder != client else [*found, *self.paint(client, words[1:]), *self.give_back(client, "post")]
        if verb == "acquire":
            return self.acquire(client, words)
        if verb in ("post", "discard"):
            return self.give_back(client, verb)
        return self.call(client, name, verb, self.names.read(client, verb, words))

    def ask(self, name, *values, data=b""):
        """Asks the core. Returns code and value."""
        return self.client.say(name, *values, data=data).awaited()[1:3]

    def call(self, client, name, verb, words):
        """Makes a call, whose value the name stands for from then on."""
        if verb in BEGINS:
            return [self.ask("BeginContext", *words)]
        message = BY_WORD[verb]
        code, value = self.ask(message.name, *arguments_of(message, words))
        if verb in CREATIONS:
            self.names.bind(client, name, value if code == OK else 0, self.in_setup)
        if verb in ("stream", "queue") and code == OK:
            self.streams[value] = words[:3]
        return [(code, value)]

    # The write buffer.

    def acquire(self, client, words):
        """Takes a write buffer, unless one is held."""
        if self.holder == client:
            return []
        stream = self.names.read(client, "acquire", words)[0]
        answer = self.ask("Acquire", stream)
        if answer[0] == OK:
            self.holder, self.held = client, stream
        return [answer]

    def give_back(self, client, verb):
        """Posts or discards what the client holds."""
        if self.holder != client:
            return []
        answer = self.ask(BY_WORD[verb].name)
        if answer[0] == OK:
            self.holder = None
        return [answer]

    def paint(self, client, words):
        """Paints into what the client holds. A row is put, as far as it is inside."""
        if self.holder != client:
            return []
        if words[0] != "row":
            self.ask(PAINTS[words[0]], *map(int, words[1:]))
            return []
        width, height, form = self.streams[self.held]
        row, pixels = int(words[1]), bytes.fromhex(words[2])
        count = min(width, len(pixels) // 4)
        if row < height and count:
            self.ask("put", 0, row, count, 1, data=pixels[3 : 4 * count : 4] if form == "a8" else pixels[: 4 * count])
        return []


class Keys:
    """The output's ticks, with keys of its window: space stops the script and lets it go on, n plays up to the next tick, q ends."""

    def __init__(self, client):
        self.client = client
        self.is_stopped = False
        self.steps = 0

    def hear(self):
        """Takes the keys that came."""
        while (event := self.client.event(wait=False)) is not None:
            told = word_of(event.data)
            if event.client != OUTPUT or told is None or told.letter != KEY:
                if event.has_left and event.client == OUTPUT:
                    raise Ended
                continue
            if told.first == END:
                raise Ended
            if told.first == STOP:
                self.is_stopped, self.steps = not self.is_stopped, 0
            if told.first == STEP:
                self.is_stopped, self.steps = True, self.steps + 1

    def tick(self):
        """Waits for the next tick at which the script goes on. Returns its number."""
        while True:
            tick = self.client.wait().value
            self.hear()
            if not self.is_stopped or self.steps:
                self.steps = max(0, self.steps - 1)
                return tick


class ByHand:
    """Ticks that an output in the same process makes as soon as the script waits for one. Keeps the frames."""

    def __init__(self, client, output):
        self.client = client
        self.output = output
        self.frames = bytearray()

    def tick(self):
        """Ticks, once the core knows that the script waits. Returns the number of the tick."""
        reply = self.client.wait()
        self.client.stat("streams").awaited()
        self.frames += self.output.shown()[1]
        return reply.value


def told(answers):
    """Returns answers as scripts say them in comments."""
    return ", ".join(f"{code_name(code)} {value}" for code, value in answers) or "-"


__all__ = ["ByHand", "Client", "Ended", "Keys", "Played", "told"]
