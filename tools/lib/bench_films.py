"""Measures what films cost that are checked, logged, or painted over the last frame, beside their plays, for tools/bench."""

from lib.bench_scripts import bindings_script, desk_script, drawn, moved, rounds_script, ticks_script, windows_script
from lib.limits import MOST_SIDE
from lib.measuring import film_seconds, piece, processor_seconds, ratios
from lib.memory import Memory, compiler
from lib.program import PROGRAM, has_events
from lib.tables import Left, Table, spread

LARGE = f"{MOST_SIDE}x{MOST_SIDE}"
# How many plays a log may cost over the check of its film.
MOST_LOG = "1.5"
# A port, windows of half its sides, and how often it ticks; and what a port of the largest sides does.
SIDES, HALF, TICKS = (640, 480), (320, 240), 120
LARGEST, LARGE_TICKS = (MOST_SIDE, MOST_SIDE), 60


def checked_scripts():
    """Returns the scripts whose films are checked, each with what it is."""
    return {
        "16 windows on 320x240, 200 ticks": windows_script(320, 240, 200),
        f"16 windows on {LARGE}, 15 ticks": windows_script(MOST_SIDE, MOST_SIDE, 15),
        "1,000 rounds of a stream on 64x48": rounds_script(1000),
        "an empty port of 1x1, 16,000 ticks": ticks_script(1, 1, 16000),
        "an empty port of 64x48, 5,000 ticks": ticks_script(64, 48, 5000),
        f"an empty port of {LARGE}, 15 ticks": ticks_script(MOST_SIDE, MOST_SIDE, 15),
    }


def logged_scripts():
    """Returns the scripts whose films are logged: these, and some in which much happens at the display."""
    return checked_scripts() | {
        "3,000 bindings and 3,000 releases in ticks of 32 each": bindings_script(3000, 32),
        "4,000 bindings and 4,000 releases without a tick": bindings_script(4000, 4001),
    }


def costs_of(script, folder, *more):
    """Returns the seconds of a play of a `script`, of a check of its film, and of `more` modes than that, each with where it writes, from
    files of a `folder` into files."""
    source, film, both = (folder / name for name in ("script.wfs", "film", "both"))
    source.write_bytes(script)
    costs = [film_seconds(source, film)]
    both.write_bytes(script + film.read_bytes())
    return costs + [processor_seconds([PROGRAM, mode], both, taken) for mode, taken in (("check", "/dev/null"), *more)]


def checks(setting):
    """Yields what a check of a film costs, its reading included, beside the play that makes it, its writing included, in a `setting`."""
    rows = []
    for what, script in checked_scripts().items():
        plays, own = zip(*(costs_of(script, setting.folder) for _ in range(setting.runs)))
        size = (setting.folder / "film").stat().st_size
        rows.append((what, f"{size:,}", spread(plays, 1e3, 1), spread(own, 1e3, 1), spread(ratios(own, plays))))
    heads = ("Script", "Bytes of film", "ms a play", "ms a check", "a check over a play")
    yield Table("By processor time, with reading and writing:", heads, rows)


def logs(setting):
    """Yields what a log costs over the check of its film, in plays of its script, and the memory that both take, in a `setting`."""
    if not has_events():
        yield Left("logs", "the program has no mode `events`")
        return
    memory = Memory(setting.folder) if compiler() else None
    log, both, rows, held = setting.folder / "log", setting.folder / "both", [], []
    for what, script in logged_scripts().items():
        runs = [costs_of(script, setting.folder, ("events", log)) for _ in range(setting.runs)]
        more = ratios([logged - checked for _, checked, logged in runs], [played for played, *_ in runs])
        rows.append((what, f"{log.read_bytes().count(10):,}", *(spread(times, 1e3, 1) for times in zip(*runs)), spread(more), MOST_LOG))
        if memory:
            most = [f"{memory.run([mode], both.read_bytes()).most:,}" for mode in ("check", "events")]
            held.append((what, f"{both.stat().st_size:,}", *most))
    heads = ("Script", "Lines of log", "ms a play", "ms a check", "ms a log", "a log over its check, in plays", "wanted, at most")
    yield Table("By processor time, with reading and writing:", heads, rows)
    if memory:
        yield Table("The most bytes that are held at once:", ("Script", "Bytes read", "by a check", "by a log"), held)
    else:
        yield Left("the memory of logs", "there is no C compiler")


def desks():
    """Returns the desks that are painted anew, each with its port, its windows, and what comes before a tick of a number."""
    blended = (HALF, True)
    return {
        "eight blended windows, nothing changed": (SIDES, [blended] * 8, lambda number: []),
        "a cursor of 16x16 that moves over them": (SIDES, [blended] * 8 + [((16, 16), True)], lambda number: moved(8, number)),
        "a clock of 96x32 over 15 blended windows": (SIDES, [blended] * 15 + [((96, 32), True)], lambda number: drawn([15], number)),
        "eight blended windows, all drawn anew": (SIDES, [blended] * 8, lambda number: drawn(range(8), number)),
        "one opaque layer, nothing changed": (SIDES, [(SIDES, False)], lambda number: []),
        "one opaque layer, drawn anew": (SIDES, [(SIDES, False)], lambda number: drawn([0], number)),
        "twelve blended windows of 400x400, which no place has room for": (LARGEST, [((400, 400), True)] * 12, lambda number: []),
    }


def repaint_seconds(given):
    """Returns the seconds of a play of the script `given` whose frames are painted over the last ones."""
    return processor_seconds([PROGRAM, "film", "--repaint"], given)


def repaints(setting):
    """Yields what a tick costs whose frames are painted over the last ones, beside one that is painted whole, in a `setting`."""
    rows = []
    for what, (size, windows, before) in desks().items():
        ticks = LARGE_TICKS if size == LARGEST else TICKS
        made = lambda count, desk=(size, windows, before): desk_script(*desk, count)
        plain, over = zip(*([piece(cost, made, ticks) for cost in (film_seconds, repaint_seconds)] for _ in range(setting.runs)))
        rows.append((what, f"{size[0]}x{size[1]}", spread(plain, 1e3), spread(ratios(over, plain))))
    yield Table("A tick with all of it: the calls, the pictures of context and port, and the film:",
                ("Scene", "Port", "ms a tick", "with `--repaint`, over that"), rows)
