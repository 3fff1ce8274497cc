"""Plays the built program as the tools do: the one that WFPLAY names, or that of this checkout. So WFCASES and WFWIRE name cases_machine
and cases_wire, which play cases, WFSERVE the live core, and WFPICTURES and WFDESK bench_pictures and bench_desk, which take times."""

import functools
import os
import subprocess
from pathlib import Path

TOP = Path(__file__).resolve().parent.parent.parent
PROGRAM = Path(os.environ.get("WFPLAY") or TOP / "crates/wfplay/out/wfplay")
CASES = Path(os.environ.get("WFCASES") or TOP / "crates/cases_machine/out/cases_machine")
SESSIONS = Path(os.environ.get("WFWIRE") or TOP / "crates/cases_wire/out/cases_wire")
SERVE = Path(os.environ.get("WFSERVE") or TOP / "crates/wfserve/out/wfserve")
PICTURES = Path(os.environ.get("WFPICTURES") or TOP / "crates/bench_pictures/out/bench_pictures")
DESK = Path(os.environ.get("WFDESK") or TOP / "crates/bench_desk/out/bench_desk")
SECONDS = 120


def play(text, form=2, *more):
    """The exit status of a play, its film in a form, and its notes. Further words are given to the program as they are."""
    return play_bytes(text.encode("utf-8"), form, *more)


def play_bytes(data, form=2, *more):
    """The same of a script that may be any bytes."""
    words = [str(PROGRAM), "film", "--film", str(form), *more]
    played = subprocess.run(words, input=data, capture_output=True, timeout=SECONDS, check=False)
    return played.returncode, played.stdout, played.stderr.decode("utf-8", "replace")


def checked(text, film):
    """The exit status and the notes of a check of the film after a script."""
    return checked_bytes(text.encode("utf-8") + film)


def checked_bytes(given):
    """Returns the same of a script and a film that may be any bytes."""
    ran = subprocess.run([str(PROGRAM), "check"], input=given, capture_output=True, timeout=SECONDS, check=False)
    return ran.returncode, ran.stderr.decode("utf-8", "replace")


@functools.cache
def has_events():
    """Answers whether the program has the mode `events`: another one takes its word for no command."""
    return subprocess.run([str(PROGRAM), "events"], input=b"", capture_output=True, timeout=SECONDS, check=False).returncode != 2


def logged(text, film, depth):
    """Answers the exit status, the log and the notes of a `film` after the script `text`, by a queue of `depth` entries."""
    return logged_bytes(text.encode("utf-8") + film, depth)


def logged_bytes(data, depth):
    """Answers the same of `data`, a script and a film that may be any bytes."""
    words = [str(PROGRAM), "events", "--depth", str(depth)]
    ran = subprocess.run(words, input=data, capture_output=True, timeout=SECONDS, check=False)
    return ran.returncode, ran.stdout, ran.stderr.decode("utf-8", "replace")


def printed_bytes(data):
    """Returns the exit status and the notes of a script that is printed, which may be any bytes."""
    ran = subprocess.run([str(PROGRAM), "print"], input=data, capture_output=True, timeout=SECONDS, check=False)
    return ran.returncode, ran.stderr.decode("utf-8", "replace")
