"""Stands in for the programs that tools/bench runs, for trying it: its first word names one, and the others are those of that program. It
judges scripts and films only as far as the tool looks, and what it prints of times is always the same."""

import os
import sys

MOST_SCRIPT, MOST_FILM = 1 << 20, 1 << 26
DONE, TOO_LONG, NO_SCRIPT, NO_ORDER, NO_FILM = 0, 4, 5, 8, 9
END = b"\nend\n"
# A film without frames and entries.
FILM = b"WFF2J" + bytes(4) + b"E"
KINDS = ("no layer", "one opaque layer", "32 translucent layers of half the sides")
SIZES = ("320x240", "1024x1024")


def ended(status, note=""):
    """Ends with a `status` and a `note`."""
    sys.stderr.write(f"{note}\n" if note else "")
    sys.stdout.flush()
    os._exit(status)


def played():
    """Ends as a play of the script on standard input, whose film is put."""
    script = sys.stdin.buffer.read(MOST_SCRIPT + 1)
    if len(script) > MOST_SCRIPT:
        ended(TOO_LONG, "input too long")
    if not script.endswith(END):
        ended(NO_SCRIPT, "line 1: rule 0")
    sys.stdout.buffer.write(FILM)
    ended(DONE)


def verdict(film):
    """Returns the status and the note of a `film`."""
    if len(film) > MOST_FILM:
        return TOO_LONG, "input too long"
    if not film.startswith(b"WFF2"):
        return NO_FILM, "bad film at 0: rule 1"
    if not film.endswith(b"E"):
        return NO_FILM, f"bad film at {len(film)}: rule 3"
    return (DONE, "same") if film == FILM else (NO_ORDER, "bad order at entry 1")


def checked(log):
    """Ends as a check of the script and the film on standard input, which puts a `log` where the film is the same."""
    script, end, film = sys.stdin.buffer.read().partition(END)
    if not end:
        ended(TOO_LONG, "input too long") if len(script) > MOST_SCRIPT else ended(NO_SCRIPT, "line 1: rule 0")
    status, note = verdict(film)
    sys.stdout.write(log * (status == DONE))
    ended(status, note)


def player(mode):
    """Ends as wfplay in a `mode`."""
    if mode in ("film", "print"):
        played()
    elif mode == "session":
        sys.stdin.buffer.read()
    else:
        checked("13 bind 1\n" * (mode == "events"))


def core(*words):
    """Ends as wfserve with its `words`."""
    sys.stdin.buffer.read()
    with open(words[words.index("--frames") + 1], "wb") as sink:
        sink.write(b"F" * 10)


def pictures(word):
    """Prints what bench_pictures does for a `word`."""
    if word == "paint":
        print("a canvas of 1024x1024 filled: 170 us\nstd's fill of as many bytes: 152 us")
    elif word == "order":
        print("100000 calls on the order of 64 elements, 9 done by links, 9 by vectors: 11400 us by links, 8500 us by vectors")
    for size in SIZES:
        for kind in KINDS:
            if word == "picture":
                print(f"a picture of {size}, {kind}: 0.843 ns a pixel")
            elif word == "rows":
                print("\n".join(f"a picture of {size}, {kind}, by {count} workers: {count - 0.25:.2f} times as fast" for count in (2, 4)))
        if word == "picture":
            print("the 16 windows, each whole and on a target of its own: 3.210 ns a pixel")


def desk(_):
    """Prints what bench_desk does."""
    print("\n".join(f"threads {count}: {37000000 // count} calls a second behind a desk, 62000000 in a lock" for count in (1, 2, 4)))


def valgrind(*_):
    """Counts as many instructions as bytes come, as valgrind tells them."""
    ended(DONE, f"==1== I   refs:      {len(sys.stdin.buffer.read()) + 1:,}")


PROGRAMS = {"wfplay": player, "wfserve": core, "bench_pictures": pictures, "bench_desk": desk, "valgrind": valgrind}

if __name__ == "__main__":
    name, *rest = sys.argv[1:]
    # Of the player's options nothing is asked.
    PROGRAMS[name](*(rest[:1] if name == "wfplay" else rest))
