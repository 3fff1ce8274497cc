"""What all tools over films share: how one ends, and how it writes."""

import argparse
import contextlib
import os
import signal
import sys

from lib.film import NoFilm

DONE = 0
NO_WAY = 1
NO_FILM = 2
STOPPED = 130


class Refused(Exception):
    """What a tool doesn't do, and why."""


class Ended(Exception):
    """A tool ends with this status and says nothing."""

    def __init__(self, status):
        super().__init__(status)
        self.status = status


def words_of(text):
    """A reader of words, whose help is the tool's own text."""
    first, _, rest = text.partition("\n")
    form = argparse.RawDescriptionHelpFormatter
    return argparse.ArgumentParser(description=first, epilog=rest.strip("\n"), formatter_class=form)


def stream(what):
    """Standard output for bytes, which are nothing for a terminal."""
    if sys.stdout.isatty():
        raise Refused(f"{what} is for a pipe or a file, and standard output is a terminal")
    return sys.stdout.buffer


@contextlib.contextmanager
def whole(path):
    """A file to write, which stands at its path as soon as it is whole, and nowhere where that fails."""
    if path.exists() and not path.is_file():
        raise Refused(f"{path} is no file")
    part = path.with_name(path.name + ".part")
    try:
        with open(part, "wb") as sink:
            yield sink
        os.replace(part, path)
    finally:
        part.unlink(missing_ok=True)


def run(name, main):
    """Runs a tool and ends with its status. Each way that does not work has one line: no film (2), a refusal or no way to
    read or write (1), a Ctrl-C (130). Where nobody reads on, the tool ends as other programs do."""
    signal.signal(signal.SIGPIPE, signal.SIG_DFL)
    for told in sys.stdout, sys.stderr:
        # A terminal may have no sign for a letter of a script.
        told.reconfigure(errors="backslashreplace")
    status, line = DONE, None
    try:
        main()
        sys.stdout.flush()
    except Ended as end:
        status = end.status
    except NoFilm as fault:
        status, line = NO_FILM, str(fault)
    except (Refused, OSError) as fault:
        status, line = NO_WAY, str(fault)
    except KeyboardInterrupt:
        status, line = STOPPED, "stopped"
    if line:
        print(f"{name}: {line}", file=sys.stderr)
    sys.exit(status)
