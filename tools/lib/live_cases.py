"""The cases of the live core, lib/live.cases: messages of several clients with what each is answered, worked out by hand from docs/live.md.
The model plays them, and any program that serves the same messages.

    core 2x1 1x1 pipes 1        a core of its own begins, with these ports and pipelines; behind them `bands` where it has that word
    1 StreamNew 2 1 rgba 2 = Ok 1
                                client 1 asks, and is answered this; a message has its name, words or numbers for its arguments, and
                                `,` between the four numbers of a value
    8 tick = Ok 1, 2 wait Ok 1  behind the own answer, or before it, those to others: the client, the message, code and value
    0 tell 3 :6869 = 3 told Ok 0 :6869, Ok 0
                                bytes have a `:` before them; `:00*4096` is so many times the same byte
    1 hex 04:00 = IllegalArgument 0
                                a body that is any bytes
    frames = 46 01 00000001 0001 0002 000000ff*2
                                what went to the frames since they were told last
    rest 0000 = bad frame       the input ends with these bytes, at whose first one a frame begins that is none
"""

from typing import NamedTuple

from lib.film import CODES
from lib.live import LENGTH, NO_CALL, NO_CALL_NAME, NUMBERS, answer_bytes, answer_of, body, code_name, framed, name_of
from lib.player import PAINTED
from lib.serving import Live, band, film_frame
from lib.wire import NAMED, arguments_of


class Step(NamedTuple):
    """A line of a file: its number, its text, the bytes that it adds to the input, and the frames of the output that are wanted. Where the
    line tells `frames` they are those bytes, and `is_end` where the input is no frame any more."""

    place: int
    text: str
    sent: bytes
    wanted: list
    frames: bytes = None
    is_end: bool = False


class Core(NamedTuple):
    """A core of its own: its ports, how many pipelines it has, whether it puts bands, and its steps."""

    ports: list
    pipes: int
    has_bands: bool
    steps: list


def bytes_of(word):
    """Returns the bytes that a `word` tells, which may have `:` between them, and a `*` with a number behind them."""
    data, _, times = word.partition("*")
    return bytes.fromhex(data.replace(":", "")) * int(times or 1)


def value_of(kind, word):
    """Returns an argument of a `kind` that a `word` tells: a number, four numbers, or the word that stands for a number."""
    if "," in word:
        return [int(number) for number in word.split(",")]
    if word.lstrip("-").isdigit():
        return [int(word)] if kind == "values" else int(word)
    return word


def sent_by(client, name, words):
    """Returns the frame of a message: its `client`, its `name`, and its `words`."""
    data = b"".join(bytes_of(word[1:]) for word in words if word.startswith(":"))
    words = [word for word in words if not word.startswith(":")]
    if name == "hex":
        return framed(bytes([client]), bytes.fromhex("".join(words).replace(":", "")) + data)
    kinds = [kind for _, kind in arguments_of(NAMED[name])] if name in NAMED else ["number"] * len(words)
    return framed(bytes([client]), body(name, *map(value_of, kinds, words), data=data))


def number_of(name):
    """Returns the number of a message, by its `name`."""
    return NAMED[name].number if name in NAMED else NUMBERS[name]


def answer_by(client, number, words):
    """Returns the frame of an answer: its own `client` and `number`, unless the `words` tell others."""
    if words[0].isdigit():
        client, number, words = int(words[0]), number_of(words[1]), words[2:]
    code = NO_CALL if words[0] == NO_CALL_NAME else CODES.index(words[0])
    data = b"".join(bytes_of(word[1:]) for word in words[2:])
    return framed(bytes([client]), answer_bytes(number, code, int(words[1]), data))


def step_of(place, line):
    """Returns the step of a `line` that stands at a `place`."""
    call, _, want = (part.strip() for part in line.partition("="))
    if call == "frames":
        return Step(place, line, b"", [], frames=b"".join(map(bytes_of, want.split())))
    words = call.split()
    if words[0] == "rest":
        return Step(place, line, bytes.fromhex("".join(words[1:]).replace(":", "")), [], is_end=True)
    sent = sent_by(int(words[0]), words[1], words[2:])
    own = (int(words[0]), sent[LENGTH + 1])
    return Step(place, line, sent, [answer_by(*own, answer.split()) for answer in want.split(", ") if want])


def cores(path):
    """Yields the cores of a file of cases."""
    core = None
    for place, line in enumerate(path.read_text(encoding="utf-8").splitlines(), 1):
        words = line.split()
        if not words or line.startswith("#"):
            continue
        if words[0] == "core":
            if core:
                yield core
            pipes = int(words[words.index("pipes") + 1]) if "pipes" in words else 0
            core = Core([tuple(map(int, word.split("x"))) for word in words[1:] if "x" in word], pipes, "bands" in words, [])
        else:
            core.steps.append(step_of(place, line))
    yield core


def shown(frames):
    """Returns output frames as a file of cases tells them."""
    told = []
    for frame in frames:
        client, answer = frame[LENGTH], answer_of(frame[LENGTH + 1 :])
        data = f" :{answer.data.hex()}" if answer.data else ""
        told.append(f"{client} {name_of(answer.number)} {code_name(answer.code)} {answer.value}{data}")
    return ", ".join(told) or "nothing"


def differences(core, step_answers, step_frames):
    """Yields where a core answers otherwise, by functions that return the answers to a step, and the frames since they were asked for."""
    for step in core.steps:
        if step.is_end:
            continue
        if step.frames is not None:
            came = step_frames()
            if came != step.frames:
                yield f"{step.place}: the frames are {came.hex() or 'none'}: {step.text}"
        else:
            came = step_answers(step)
            if came != step.wanted:
                yield f"{step.place}: {shown(came)}: {step.text}"


def by_model(core):
    """Yields where the model answers a core otherwise."""
    frames, told = bytearray(), band if core.has_bands else film_frame
    live = Live(core.ports, core.pipes, lambda *picture: frames.extend(told(*picture)))

    def answers(step):
        return [framed(bytes([client]), data) for client, data in live.answers(step.sent[LENGTH], step.sent[LENGTH + 1 :])]

    def taken():
        came = bytes(frames)
        frames.clear()
        return came

    PAINTED.clear()
    yield from differences(core, answers, taken)


def input_of(core):
    """Returns the whole input of a core."""
    return b"".join(step.sent for step in core.steps)


def is_cut(core):
    """Returns whether the input of a core ends with what is no frame."""
    return core.steps[-1].is_end
