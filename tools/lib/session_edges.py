"""Cases of cases_wire at the edges of what messages may be, as lib/session.py answers them: each number of a message, and the ends of each
kind of arguments with the numbers beside them."""

from lib.session_cases import Player
from lib.wire import ANY, ARGUMENT, MESSAGES, RANGES, arguments_of, kinds_of, message

# Headers of one port of one pixel, without a pipeline and with one.
ONE_PORT, ONE_PIPE = "57465731 01 0001 0001 00", "57465731 01 0001 0001 01"
CANVAS = [("StreamNew", 1, 1, "rgba", 2), ("Acquire", 1)]
SCENE = [("DeviceNew",), ("ScreenContext", 1, 1), ("ElementNew", 1, 2)]
# For each kind what is said before, and a message with the argument of this kind left open.
OPEN = {
    "number": ([], ("StreamNew", ..., 1, "rgba", 2)),
    "handle": ([], ("StreamDestroy", ...)),
    "format": ([], ("StreamNew", 1, 1, ..., 2)),
    "stat": ([], ("Stat", ...)),
    "transition": ([], ("PipeBindSource", 1, 0, ...)),
    "element": (SCENE, ("ElementGet", 1, 3, ..., 0)),
    "context": (SCENE[:2], ("ContextGet", 1, 2, ..., 0)),
    "port": ([], ("PortGet", 1, ..., 0)),
    "pipe": ([], ("PipeGet", 1, ..., 0)),
    "channel": (CANVAS, ("Fill", 1, 2, 3, ...)),
    "coordinate": (CANVAS, ("Rectangle", ..., 0, 1, 1, 1, 2, 3, 4)),
    "extent": (CANVAS, ("Rectangle", 0, 0, ..., 1, 1, 2, 3, 4)),
    "square": (CANVAS, ("Checker", ..., 1, 2, 3, 4, 5, 6, 7, 8)),
}


def spelled(part):
    """Returns a message in hexadecimal, with a space before each argument."""
    return " ".join([part[:1].hex(), *(part[at : at + ARGUMENT].hex() for at in range(1, len(part), ARGUMENT))])


def case(head, *parts):
    """Returns the case of a session of a header and messages."""
    call = " ".join(["session", head, *map(spelled, parts)])
    return f"{call} = {Player().answer(call)}"


def number_cases():
    """Yields the lines on each number of a message, which stands after a header alone. Where it has arguments, they are missing."""
    yield f"# no message has 0, nor a number above {len(MESSAGES)}; of the others those that have arguments are cut at the input's length"
    for number in range(256):
        yield case(ONE_PORT, bytes([number]))


def beside(kind):
    """Returns the ends of a kind, and the numbers beside them that an argument can be."""
    least, most = RANGES[kind]
    return [number for number in (least - 1, least, most, most + 1) if ANY[0] <= number <= ANY[1]]


def kind_cases():
    """Yields the lines on each kind: its ends, which are read, and the numbers beside them, which are not."""
    for kind, (before, (name, *values)) in OPEN.items():
        told = [message(*own) for own in before]
        yield f"# {kind}, from {RANGES[kind][0]} to {RANGES[kind][1]}, as an argument of {name}"
        for number in beside(kind):
            filled = [number if value is ... else value for value in values]
            yield case(ONE_PIPE, *told, message(name, *filled))


def argument_cases():
    """Yields the same of each argument of each message, with a canvas held and no object but its stream."""
    told = [message(*own) for own in CANVAS]
    for own in MESSAGES.values():
        plain = message(own.name, *(max(0, RANGES[kind][0]) if kind in RANGES else 0 for _, kind in arguments_of(own)))
        for place, kind in enumerate(kinds_of(own)):
            at = 1 + ARGUMENT * place
            for number in beside(kind):
                changed = plain[:at] + number.to_bytes(ARGUMENT, "big", signed=True) + plain[at + ARGUMENT :]
                yield case(ONE_PIPE, *told, changed)
