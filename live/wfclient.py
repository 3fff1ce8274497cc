"""A client of the live system, by docs/live.md: one socket of the broker, and a function for each message.

    with Client("app") as client:
        stream = client.stream_new(64, 48, "rgba", 3)
        client.acquire(stream)
        client.fill(200, 80, 40, 255)
        client.post()
        client.sync()

A function sends its message, and does not wait: it returns a Reply, whose answer is awaited where it is asked for. So many messages go out
before the first answer is read. A Reply may stand where its value is an argument. `sync` waits for all answers, and raises Refused for the
first message that was refused. What others tell meanwhile is kept, and `event` returns it. Where the window manager asks
for the picture of a port, `begin_port(1).data` is its width and its height, of two bytes each, and its pixels. `help(Client)` lists the
functions.
"""

import inspect
import os
import select
import socket
import sys
from collections import deque
from pathlib import Path
from typing import NamedTuple

sys.path.insert(0, str(Path(__file__).resolve().parent.parent / "tools"))

from lib.live import LEFT, LENGTH, MANAGER, OUTPUT, OWN, TICK, TOLD, WAIT, WITH_BYTES, answer_of, body, code_name, framed  # noqa: E402
from lib.wire import TABLE, arguments_of  # noqa: E402

# The folder of the broker's sockets, where the variable names none.
FOLDER = "/run/wf"
PIECE = 1 << 18
OK = 0


class Refused(Exception):
    """A message was refused: its name, the code with its name, and the value."""

    def __init__(self, message, code, value):
        super().__init__(f"{message}: {code_name(code)} {value}")
        self.message = message
        self.code = code
        self.name = code_name(code)
        self.value = value


class Event(NamedTuple):
    """What comes unasked: from which client bytes were told, or, where `has_left`, which client is gone."""

    client: int
    data: bytes
    has_left: bool


class Reply:
    """What a message is answered, once it is: a code, a value, and the bytes behind."""

    def __init__(self, client, message):
        self.client = client
        self.message = message
        self.answer = None

    def awaited(self):
        """Returns the answer, for which it waits."""
        while self.answer is None:
            self.client.take_more()
        return self.answer

    @property
    def code(self):
        """Returns the code of the answer."""
        return self.awaited().code

    @property
    def data(self):
        """Returns the bytes behind the value."""
        return self.awaited().data

    @property
    def value(self):
        """Returns the value of the answer, or raises Refused."""
        code, value = self.awaited()[1:3]
        if code != OK:
            raise Refused(self.message, code, value)
        return value


def folder():
    """Returns the folder of the broker's sockets, which the variable WF_DIR names."""
    return Path(os.environ.get("WF_DIR", FOLDER))


def given(value):
    """Returns an argument as a number or a word, or as several: a Reply stands for its value."""
    if isinstance(value, (list, tuple)):
        return [given(each) for each in value]
    return value.value if isinstance(value, Reply) else value


class Client:
    """A connection to the broker by the socket of a `name`: `wm`, `app` or `out`, in the folder `where`, or in that which WF_DIR names. Use
    one in one thread."""

    def __init__(self, name, where=None):
        self.where = Path(where or folder())
        self.socket = socket.socket(socket.AF_UNIX, socket.SOCK_STREAM)
        self.socket.connect(str(self.where / name))
        self.socket.setblocking(False)
        self.out = bytearray()
        self.kept = bytearray()
        self.owed = deque()
        self.waits = deque()
        self.refused = None
        self.events = deque()

    def __enter__(self):
        return self

    def __exit__(self, *_):
        self.close()

    def close(self):
        """Leaves: all that the client made goes."""
        self.socket.close()

    def fileno(self):
        """Returns the descriptor, for `select`. Ask `flush` before, and `take_more` where something is to be read."""
        return self.socket.fileno()

    # Bytes.

    def say(self, name, *values, data=b""):
        """Sends a message by its name, with `values` of its arguments and the `data` behind them. Returns its Reply."""
        own = body(name, *map(given, values), data=bytes(data))
        self.out += framed(own)
        reply = Reply(self, name)
        (self.waits if own[0] == WAIT else self.owed).append(reply)
        if len(self.out) > PIECE:
            self.flush()
        return reply

    def flush(self):
        """Sends all that was said, and reads what comes meanwhile, so that neither side waits for the other."""
        while self.out:
            readable, writable, _ = select.select([self.socket], [self.socket], [])
            if readable:
                self.take_bytes()
            if writable:
                del self.out[: self.socket.send(self.out[:PIECE], socket.MSG_NOSIGNAL)]

    def take_more(self):
        """Sends all that was said, and waits until something comes."""
        self.flush()
        select.select([self.socket], [], [])
        self.take_bytes()

    def take_bytes(self):
        """Reads what is there, and takes each answer that is whole."""
        data = self.socket.recv(PIECE)
        if not data:
            raise EOFError("the broker is gone")
        self.kept += data
        at = 0
        while len(self.kept) >= at + LENGTH:
            end = at + LENGTH + int.from_bytes(self.kept[at : at + LENGTH], "big")
            if len(self.kept) < end:
                break
            self.take_answer(answer_of(bytes(self.kept[at + LENGTH : end])))
            at = end
        del self.kept[:at]

    def take_answer(self, answer):
        """Gives an answer to the Reply that it is for. Answers come in the order of the messages, but for those of `wait`."""
        if answer.number in (TOLD, LEFT) and answer.code == OK:
            self.events.append(Event(answer.value, answer.data, answer.number == LEFT))
            return
        if answer.number == WAIT:
            reply = self.waits[1 if answer.code != OK and len(self.waits) > 1 else 0]
            self.waits.remove(reply)
        else:
            reply = self.owed.popleft()
        reply.answer = answer
        if answer.code != OK and self.refused is None:
            self.refused = Refused(reply.message, answer.code, answer.value)

    # What is awaited.

    def sync(self):
        """Waits for the answers to all messages but `wait`. Raises Refused for the first that was refused since the last `sync`."""
        while self.owed:
            self.take_more()
        refused, self.refused = self.refused, None
        if refused:
            raise refused

    def event(self, wait=True):
        """Returns the next thing that came unasked, for which it waits, or None where it need not `wait` and there is none."""
        while not self.events:
            if not wait:
                self.flush()
                if not select.select([self.socket], [], [], 0)[0]:
                    return None
                self.take_bytes()
            else:
                self.take_more()
        return self.events.popleft()


class Output(Client):
    """The client that ticks, and reads the frames. `last` is for who pastes them: the pixels of each port's last picture."""

    def __init__(self, where=None):
        super().__init__("out", where)
        # Once it is answered it is the output, and what an output before it left in the pipe is gone.
        self.tell(OUTPUT).awaited()
        self.events.clear()
        self.last = {}
        self.frames = os.open(self.where / "frames", os.O_RDONLY | os.O_NONBLOCK)

    def close(self):
        super().close()
        os.close(self.frames)

    def shown(self):
        """Ticks. Returns the number of the tick, and the bytes of the frames and bands that came with it."""
        reply, data = self.tick(), bytearray()
        self.flush()
        while reply.answer is None:
            readable, _, _ = select.select([self.socket, self.frames], [], [])
            if self.frames in readable:
                data += os.read(self.frames, PIECE)
            elif readable:
                self.take_bytes()
        # The core put all frames before it answered, so that what is left stands in the pipe.
        while select.select([self.frames], [], [], 0)[0] and (more := os.read(self.frames, PIECE)):
            data += more
        return reply.value, bytes(data)


def method_of(own_name, name, arguments, has_bytes, does):
    """Returns the method of a message: its own name, the message's, its arguments with their kinds, whether it `has_bytes` behind them, and
    what it does."""
    parameters = [inspect.Parameter(each, inspect.Parameter.POSITIONAL_OR_KEYWORD) for each, _ in arguments]
    if has_bytes:
        parameters.append(inspect.Parameter("data", inspect.Parameter.POSITIONAL_OR_KEYWORD, default=b""))
    signature = inspect.Signature(parameters)

    def method(self, *values, **named):
        bound = signature.bind(*values, **named).arguments
        data = bound.pop("data", b"")
        return self.say(name, *bound.values(), data=data)

    told = ", ".join(f"{each} {'up to four numbers' if kind == 'values' else kind}" for each, kind in arguments)
    method.__name__ = own_name
    method.__doc__ = f"Sends {name}. {does} Arguments: {told or 'none'}."
    itself = inspect.Parameter("self", inspect.Parameter.POSITIONAL_ONLY)
    method.__signature__ = signature.replace(parameters=[itself, *parameters])
    return method


# What the messages do that are no calls, but for the one that is the broker's.
DOES = {
    "put": "Writes a rectangle of pixels into the canvas that is held.",
    "tick": "Composes all active contexts, and then each port.",
    "wait": "Is answered with the next tick.",
    "tell": "Tells bytes to a client.",
    "size": "Asks for the sides of a stream: the width times 65536, and the height.",
}
for each in TABLE.messages:
    does = each.texts.get("does", "Paints into the canvas that is held.")
    setattr(Client, each.own, method_of(each.own, each.name, arguments_of(each), False, does))
for number, own in OWN.items():
    if own.name in DOES:
        kinds = [(each, "client" if each == "client" else "number") for each in own.arguments]
        setattr(Client, own.name, method_of(own.name, own.name, kinds, number in WITH_BYTES, DOES[own.name]))

__all__ = ["MANAGER", "OUTPUT", "TICK", "Client", "Event", "Output", "Refused", "Reply", "folder"]
