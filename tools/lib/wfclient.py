"""A client of a program that serves a session on its standard input and output, by docs/formats.md.

    with Client(["./wfplay", "session"], [(64, 48)]) as client:
        stream = client.stream_new(8, 8, "rgba", 2).value
        client.acquire(stream)
        client.fill(200, 80, 40, 255)
        client.post()

There is a method for each message of the table of calls, by its name in small letters and with its arguments: numbers, or words where
numbers stand for words. It waits for the answer. `help(Client)` lists them.
"""

import contextlib
import inspect
import io
import subprocess
from typing import NamedTuple

from lib.film import CODES
from lib.wire import TABLE, Broken, Reader, arguments_of, header, message

OK = CODES.index("Ok")
# The code of an answer to a message that made no call for want of a canvas, or had one, and what it is called here.
NO_CALL, NO_CALL_NAME = 255, "NoCall"
ANSWER, SIZE, PIXEL = 5, 4, 4


class Answer(NamedTuple):
    """What a message is answered: a code, which is 0 where it was carried out, and a value."""

    code: int
    value: int


class Shown(NamedTuple):
    """What a port is answered that is to be shown, with its picture: rows from the top, red, green, blue and alpha. Where no frame began it
    has no sides and no pixels."""

    code: int
    value: int
    width: int
    height: int
    pixels: bytes


class Refused(Exception):
    """A message was refused: the name of the code, the code and the value."""

    def __init__(self, message_name, code, value):
        super().__init__(f"{name_of(code)} {value}: {message_name}")
        self.name = name_of(code)
        self.code = code
        self.value = value


class Ended(Exception):
    """The program ended the session before the answer was whole."""


def name_of(code):
    """Returns the name of a code."""
    return NO_CALL_NAME if code == NO_CALL else CODES[code]


class Client:
    """A session with a program, which begins at once. Where it `raises`, a message that is refused raises Refused."""

    def __init__(self, command, ports, pipes=0, raises=False):
        self.raises = raises
        self.program = subprocess.Popen([*map(str, command)], stdin=subprocess.PIPE, stdout=subprocess.PIPE)
        self.send(header(ports, pipes))

    def __enter__(self):
        return self

    def __exit__(self, *_):
        self.close()

    def close(self):
        """Ends the session, which discards a canvas that is held. Returns the exit status of the program."""
        with contextlib.suppress(BrokenPipeError):
            self.program.stdin.close()
        self.program.stdout.close()
        return self.program.wait()

    def send(self, data):
        """Sends bytes to the program. Where it takes no more, the answer will be missing."""
        with contextlib.suppress(BrokenPipeError):
            self.program.stdin.write(data)
            self.program.stdin.flush()

    def receive(self, count):
        """Returns the next bytes that the program answers."""
        data = self.program.stdout.read(count)
        if len(data) < count:
            raise Ended("the program ended before the answer was whole")
        return data

    def say(self, name, *values):
        """Sends a message by its name in the table of calls. Returns its answer, after which `show` reads the picture of a BeginPort."""
        data = message(name, *values)
        try:
            Reader(io.BytesIO(data)).message()
        except Broken as fault:
            raise ValueError(f"{name}: byte {fault.at} breaks rule {fault.rule} of messages") from None
        self.send(data)
        told = self.receive(ANSWER)
        answer = Answer(told[0], int.from_bytes(told[1:], "big"))
        if self.raises and answer.code != OK:
            raise Refused(name, *answer)
        return answer

    def show(self, port):
        """Shows a port: sends BeginPort, and returns its answer with the picture."""
        answer = self.say("BeginPort", port)
        if answer.code != OK or answer.value == 0:
            return Shown(*answer, 0, 0, b"")
        sides = self.receive(SIZE)
        width, height = int.from_bytes(sides[:2], "big"), int.from_bytes(sides[2:], "big")
        return Shown(*answer, width, height, self.receive(PIXEL * width * height))


def method_of(own):
    """Returns the method of a message, which takes its arguments by place or by name."""
    arguments = arguments_of(own)
    names = inspect.Signature([inspect.Parameter(name, inspect.Parameter.POSITIONAL_OR_KEYWORD) for name, _ in arguments])

    def method(self, *values, **named):
        return self.say(own.name, *names.bind(*values, **named).arguments.values())

    told = ", ".join(f"{name} {'up to four numbers' if kind == 'values' else kind}" for name, kind in arguments)
    method.__name__ = own.own
    method.__doc__ = f"Sends {own.name}. {own.texts.get('does', 'Paints into the canvas that is held.')} Arguments: {told or 'none'}."
    itself = inspect.Parameter("self", inspect.Parameter.POSITIONAL_ONLY)
    method.__signature__ = names.replace(parameters=[itself, *names.parameters.values()])
    return method


for each in TABLE.messages:
    setattr(Client, each.own, method_of(each))
# The picture of a port comes after the answer.
Client.begin_port = Client.show
