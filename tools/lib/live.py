"""The messages of the live core as bytes, by docs/live.md: which there are, who may send each, and what comes back. The calls among them
are those of the table of calls, as lib/wire.py writes them."""

from typing import NamedTuple

from lib.film import CODES
from lib.limits import MOST_SIDE
from lib.wire import ARGUMENT, MESSAGES, NAMED, RANGES, kinds_of, message

# The clients: the window manager, the apps, the output, and the broker.
MANAGER, APPS, OUTPUT, BROKER = 0, range(1, 8), 8, 255
CLIENTS = (MANAGER, *APPS, OUTPUT)
# The numbers of the messages that are no calls, and of the answers that nobody asked for.
GONE, PUT, TICK, WAIT, TELL, SIZE, TOLD, LEFT = 0, 50, 51, 52, 53, 54, 55, 56
# The calls that apps may make, beside the paints.
OF_APPS = ("StreamNew", "StreamQueue", "StreamDestroy", "Acquire", "Post", "Discard", "Fill", "Rectangle", "Checker", "Ramp")
# How many live streams the window manager and an app may have.
MANAGER_STREAMS, APP_STREAMS = 32, 4
# How many bytes the buffers of those may take.
MANAGER_BYTES, APP_BYTES = 24 * MOST_SIDE**2, 8 * MOST_SIDE**2
# The code of an answer to a message that made no call, since a write buffer is held or is not.
NO_CALL, NO_CALL_NAME = 255, "NoCall"
# The least and the most that the length of a frame may be, and the most bytes that are told.
LEAST_FRAME, MOST_FRAME, MOST_TOLD = 2, 4_194_338, 4_096
# The bytes of a length, and of an answer behind its length and its client.
LENGTH, ANSWER = 4, 6


class Own(NamedTuple):
    """A message that is no call: its name, its arguments with the least and the most that each may be, and who may send it."""

    name: str
    arguments: dict
    senders: tuple


ANY, CLIENT = (-(2**63), 2**63 - 1), (MANAGER, OUTPUT)
OF_CANVASES = (MANAGER, *APPS)
OWN = {
    GONE: Own("gone", {"client": CLIENT}, (BROKER,)),
    PUT: Own("put", {"x": ANY, "y": ANY, "w": ANY, "h": ANY}, OF_CANVASES),
    TICK: Own("tick", {}, (OUTPUT,)),
    WAIT: Own("wait", {}, OF_CANVASES),
    TELL: Own("tell", {"client": CLIENT}, CLIENTS),
    SIZE: Own("size", {"stream": RANGES["handle"]}, OF_CANVASES),
}
# Those of them that have bytes behind their arguments.
WITH_BYTES = (PUT, TELL)
NUMBERS = {own.name: number for number, own in OWN.items()} | {"told": TOLD, "left": LEFT}


class Answer(NamedTuple):
    """An answer to a client: the number of the message, a code, a value, and the bytes behind them."""

    number: int
    code: int
    value: int
    data: bytes


def name_of(number):
    """Returns the name of the message of a `number`."""
    names = {own: name for name, own in NUMBERS.items()}
    return names.get(number) or (MESSAGES[number].name if number in MESSAGES else str(number))


def code_name(code):
    """Returns the name of a `code`."""
    return NO_CALL_NAME if code == NO_CALL else CODES[code]


def may_send(client, number):
    """Returns whether a `client` may send the message of a `number`."""
    if number in OWN:
        return client in OWN[number].senders
    return number in MESSAGES and (client == MANAGER or client in APPS and MESSAGES[number].name in OF_APPS)


def ranges_of(number):
    """Returns the least and the most of each argument of the message of a `number`."""
    return list(OWN[number].arguments.values()) if number in OWN else [RANGES[kind] for kind in kinds_of(MESSAGES[number])]


def body(name, *values, data=b""):
    """Returns the bytes of a message without its length and its client, by its `name`: `values` of its arguments, and the `data` behind."""
    if name in NAMED:
        return message(name, *values) + data
    number = NUMBERS[name]
    if len(values) != len(OWN[number].arguments):
        raise TypeError(f"{name} has {len(OWN[number].arguments)} arguments, and not {len(values)}")
    return bytes([number]) + b"".join(value.to_bytes(ARGUMENT, "big", signed=True) for value in values) + data


def framed(*parts):
    """Returns a frame: the length of all `parts`, and these."""
    whole = b"".join(parts)
    return len(whole).to_bytes(LENGTH, "big") + whole


def frame(client, name, *values, data=b""):
    """Returns a frame of the core's input: a message of a `client`, by its `name`, with `values` and `data` as in a body."""
    return framed(bytes([client]), body(name, *values, data=data))


def answer_bytes(number, code, value, data=b""):
    """Returns the bytes of an answer behind its length and its client."""
    return bytes([number, code]) + value.to_bytes(4, "big") + data


def answer_of(data):
    """Returns the answer that stands in the bytes `data` behind its length and its client."""
    return Answer(data[0], data[1], int.from_bytes(data[2:ANSWER], "big"), data[ANSWER:])


def frames_in(data):
    """Yields the bytes of each whole frame in `data`, without its length."""
    at = 0
    while at < len(data):
        end = at + LENGTH + int.from_bytes(data[at : at + LENGTH], "big")
        yield data[at + LENGTH : end]
        at = end
