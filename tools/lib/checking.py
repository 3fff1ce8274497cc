"""What a check of a script with the film after it finds, in words. The program decides where it is built, and else lib/replay.py."""

import io

from lib.encoding import text_of
from lib.film import Film, NoFilm
from lib.mistakes import fault_of, told
from lib.program import PROGRAM, checked_bytes
from lib.replay import Replay, verdict
from lib.script import Misfit, lines_of

NO_FILM = (
    "the script keeps all rules, and no film follows it: a check reads both, as of `cat SCRIPT FILM | ./wfplay check`, and says `bad film at "
    "0: rule 3` where there is none"
)
CHANNELS = ("red", "green", "blue", "alpha")
HEADS = {1: 10, 2: 14}
MAGIC, LETTER_AND_COUNT, ENTRY = 4, 5, 6


def is_end(line):
    """Returns whether a line's only word is `end`."""
    return line.removesuffix(b"\r").partition(b"#")[0].split() == [b"end"]


def parts_of(data):
    """Returns the script and the film of an input: the script goes up to the line feed of the first line whose only word is `end`, and is
    all where there is no such line feed."""
    at = 0
    while (feed := data.find(b"\n", at)) >= 0:
        if is_end(data[at:feed]):
            return data[: feed + 1], data[feed + 1 :]
        at = feed + 1
    return data, b""


def part_at(data, place):
    """Returns the part of a film that a byte is of, in words."""
    film = Film(io.BytesIO(data))
    at = MAGIC
    for number, frame in enumerate(film.frames(), 1):
        name = f"frame {number}, of port {frame.port} at tick {frame.tick}"
        at += HEADS[film.form]
        if place < at:
            return f"the head of {name}"
        if place < at + len(frame.pixels):
            pixel, channel = divmod(place - at, 4)
            return f"{name}: the {CHANNELS[channel]} of pixel {pixel % frame.width} {pixel // frame.width}"
        at += len(frame.pixels)
    if place < at + LETTER_AND_COUNT:
        return "the head of the journal"
    return f"event {(place - at - LETTER_AND_COUNT) // ENTRY} of the journal"


def judged(script, film):
    """Returns the exit status and the notes of a check."""
    return checked_bytes(script + film) if PROGRAM.is_file() else verdict(text_of(script), film)


def misfit_of(script, film):
    """Returns where a film's journal is no order of its script, in words."""
    lines = lines_of(text_of(script))
    try:
        for _ in Replay(lines).play(Film(io.BytesIO(film)).entries()):
            pass
    except Misfit as misfit:
        return f": {misfit}"
    return ""


def told_check(data):
    """Returns whether a check of an input finds the same, and the lines that tell what it finds."""
    script, film = parts_of(data)
    fault = fault_of(script)
    if fault:
        return False, list(told(fault))
    if not film:
        return False, [NO_FILM]
    try:
        for _ in Film(io.BytesIO(film)).entries():
            pass
    except NoFilm as no_film:
        return False, [f"bad film at {no_film.place}: rule {no_film.rule}: {no_film}; bytes count from the first after the script's line feed"]
    status, notes = judged(script, film)
    notes = notes.strip()
    if status == 8:
        return False, [notes + misfit_of(script, film)]
    if status == 7:
        return False, [f"{notes}, which is {part_at(film, int(notes.split()[-1]))}"]
    return status == 0, [notes]
