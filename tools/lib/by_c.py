"""Scripts as calls of the library for C: which function each line of a script is, with what it answers by the model, as a program of C and
through the binding for Python."""

from typing import NamedTuple

from lib.calls import table
from lib.calls_c import messages_of, snake
from lib.calls_pages import words_of
from lib.calls_wire import worded
from lib.player import Show

TABLE = table()
BY_WORD = {message.word: message for message in messages_of(TABLE)}
WORDS = words_of(TABLE)
NAMES = {kind.name: names for kind, names in worded(TABLE)}
WINDOW_MANAGER = 0
FOUR = 4


class Made(NamedTuple):
    """A call of the library: the name of its function after `wk_`, the client and the other arguments, and the code and the value that it
    answers."""

    name: str
    client: int
    arguments: list
    code: int
    value: int


class Written(NamedTuple):
    """Pixels that are written into the write buffer of a stream."""

    stream: int
    stride: int
    pixels: bytes


class Read(NamedTuple):
    """The picture of the frame that stands in the place."""

    pixels: bytes


class Choice(NamedTuple):
    """A word of a kind, with its number."""

    kind: str
    number: int


def arguments_of(message, words):
    """Returns the arguments of a message's function: numbers, words of a kind, and lists of four numbers."""
    found, rest = [], list(words)
    for _, kind in message.arguments:
        if kind == "values":
            found.append([int(word) for word in rest] + [0] * (FOUR - len(rest)))
        else:
            word = rest.pop(0)
            found.append(Choice(kind, WORDS[kind].index(word)) if kind in NAMES else word)
    return found


class Calls(Show):
    """A serial play that keeps what the library is asked for."""

    def __init__(self, text):
        self.made = []
        self.handles = {}
        super().__init__(text)

    def say(self, name, client, *arguments):
        """Keeps a call that answered what the last event did."""
        _, code, value = self.turns[-1]
        self.made.append(Made(name, client, list(arguments), code, value))

    def call(self, client, verb, words):
        came = super().call(client, verb, words)
        self.say(BY_WORD[verb].own, client, *arguments_of(BY_WORD[verb], words))
        if verb == "acquire" and came:
            self.handles[client] = words[0]
        return came

    def give_back(self, client, is_shown):
        canvas, stream = self.held[client], self.handles[client]
        pixels = bytes(canvas.pixels)
        self.made.append(Written(stream, len(pixels) // canvas.stream.h, pixels))
        super().give_back(client, is_shown)
        self.say("post" if is_shown else "discard", client, stream)

    def event(self, client, code, value):
        came = super().event(client, code, value)
        if self.frame_of is not None:
            self.frame_of(client, code, value)
        return came

    frame_of = None

    def compose(self, client, words):
        begun = []

        def told(_, code, value):
            begun.append((code, value))
            self.say(*(("end", client) if len(begun) > 1 else ("begin_context", client, *words)))

        self.frame_of = told
        super().compose(client, words)
        self.frame_of = None

    def tick(self):
        """Keeps the calls of a tick, each with what the event says of it."""
        state = {"after": 0, "port": 0, "runs": False}

        def told(client, code, value):
            if state["runs"]:
                if state["port"]:
                    self.made.append(Read(self.frames[-1].pixels))
                self.say("end", client)
                state["runs"] = False
                state["port"] += bool(state["port"])
            elif state["port"]:
                self.say("begin_port", client, state["port"])
                state["runs"] = value != 0
                state["port"] += not state["runs"]
            else:
                self.say("begin_next", client, state["after"])
                state["runs"] = code == 0 and value != 0
                state["after"] = value if code == 0 else self.machine.next_context(state["after"]).handle
                state["port"] = int(code == 0 and value == 0)

        self.frame_of = told
        super().tick()
        self.frame_of = None


HEAD = """#include "weklandu.h"

#include <stdio.h>
#include <stdlib.h>

static wk_machine machine, *m = &machine;
static wk_frame frame, *f = &frame;

/* Ends the program where an answer is another one. */
static void want(wk_told told, unsigned code, unsigned value, int place) {
    if (told.code == code && told.value == value) return;
    fprintf(stderr, "call %d: code %u, value %u, and not %u, %u\\n", place, (unsigned)told.code, (unsigned)told.value, code, value);
    exit(1);
}

void put(uint32_t stream, size_t bytes, size_t stride);
void get(void);

/* Writes pixels of standard input into a write buffer. */
void put(uint32_t stream, size_t bytes, size_t stride) {
    uint8_t *pixels = malloc(bytes);
    if (!pixels || fread(pixels, 1, bytes, stdin) != bytes || wk_write(m, stream, pixels, bytes, stride) != WK_OK) exit(2);
    free(pixels);
}

/* Writes the picture of the frame to standard output. */
void get(void) {
    wk_extent extent = wk_frame_extent(f);
    size_t stride = (size_t)extent.w * 4, bytes = stride * extent.h;
    uint8_t *out = malloc(bytes);
    if (!out || wk_read_frame(f, out, bytes, stride, WK_RGBA) != WK_OK || fwrite(out, 1, bytes, stdout) != bytes) exit(3);
    free(out);
}

int main(void) {
"""
TAIL = """    wk_frame_close(f);
    wk_machine_close(m);
    return m->at != NULL || f->at != NULL;
}
"""


def c_argument(argument):
    """Returns an argument as C has it."""
    if isinstance(argument, Choice):
        return f"WK_{argument.kind.upper()}_{snake(NAMES[argument.kind][argument.number]).upper()}"
    if isinstance(argument, list):
        return f"(const int64_t[4]){{{', '.join(map(str, argument))}}}"
    return str(argument)


def c_line(own, place):
    """Returns the statement of C for what the library is asked for."""
    if isinstance(own, Written):
        return f"put({own.stream}, {len(own.pixels)}, {own.stride});"
    if isinstance(own, Read):
        return "get();"
    handles = "m, f" if own.name == "end" or own.name.startswith("begin_") else "m"
    words = ", ".join([handles, str(own.client), *map(c_argument, own.arguments)])
    return f"want(wk_{own.name}({words}), {own.code}, {own.value}, {place});"


def c_program(calls, ports, pipes):
    """Returns the program of C that makes these calls, on a machine with these ports and pipelines."""
    modes = [f"{{{number}, {w}, {h}}}" for number, own in enumerate(ports, 1) for w, h in own]
    opening = (
        f"    const wk_mode modes[] = {{{', '.join(modes)}}};\n"
        f"    if (wk_open(m, {len(ports)}, modes, {len(modes)}, {pipes}) != WK_OK || wk_frame_open(f) != WK_OK) return 4;\n"
    )
    return HEAD + opening + "".join(f"    {c_line(own, place)}\n" for place, own in enumerate(calls)) + TAIL


def given(calls):
    """Returns the bytes that the program reads."""
    return b"".join(own.pixels for own in calls if isinstance(own, Written))


def pictures(calls):
    """Returns the bytes that it writes."""
    return b"".join(own.pixels for own in calls if isinstance(own, Read))


def number_of(argument):
    """Returns an argument as the binding for Python takes it."""
    return argument.number if isinstance(argument, Choice) else argument


def by_python(binding, calls, ports, pipes):
    """Makes these calls through the binding for Python. Yields what is answered otherwise."""
    with binding.Machine(ports, pipes, raises=False) as machine, binding.Frame() as frame:
        for place, own in enumerate(calls):
            if isinstance(own, Written):
                if not machine.write(own.stream, own.pixels, own.stride):
                    yield f"call {place}: the pixels were not written"
            elif isinstance(own, Read):
                if frame.read() != own.pixels:
                    yield f"call {place}: the picture is another one"
            else:
                handles = [frame] if own.name == "end" or own.name.startswith("begin_") else []
                told = getattr(machine, own.name)(*handles, own.client, *map(number_of, own.arguments))
                if told != (own.code, own.value):
                    yield f"call {place}: {own.name} answers {tuple(told)}, and not {(own.code, own.value)}"
