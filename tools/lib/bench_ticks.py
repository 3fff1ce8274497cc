"""Measures what ticks, lines and events cost, for tools/bench."""

from lib.bench_scripts import events_script, names_script, pipelines_script, rounds_script, ticks_script
from lib.limits import MOST_LINES, MOST_SIDE
from lib.measuring import film_seconds, piece, ratios
from lib.tables import Table, spread

MOST_TICKS = MOST_LINES - 3
# Ports of one mode, with how often each ticks.
PORTS = [(1, 1, MOST_TICKS), (64, 48, MOST_TICKS // 2), (64, 48, MOST_TICKS), (MOST_SIDE, MOST_SIDE, 64)]
ROUNDS = (500, 1000)
EVENTS = ("error d", "get d e alpha 0", "commit d c", "set d e alpha 3", "insert d e none", "stat streams")
EVENT_COUNT = 15000
# How many streams and sources live beside an event.
KEPT = ((1, 0), (60, 0), (60, 256))
PIPELINES, PIPELINE_TICKS = (0, 1, 8), 4000
FEW, MANY = 1000, 10000
# The exit status of a script without an end.
NO_END = 5
END = b"end\n"


def ticks(setting):
    """Yields what ticks of ports without a context cost, from small ports to large ones, in a `setting`."""
    source, film, rows = setting.folder / "script.wfs", setting.folder / "film", []
    for width, height, count in PORTS:
        source.write_bytes(ticks_script(width, height, count))
        times = [film_seconds(source, film) for _ in range(setting.runs)]
        each, pixels = spread(times, 1e6 / count), width * height * count
        pixel = spread(times, 1e9 / pixels) if pixels > count else ""
        rows.append((f"{width}x{height}", f"{count:,}", f"{film.stat().st_size:,}", spread(times, digits=3), each, pixel))
    yield Table("Ports without a context:", ("Port", "Ticks", "Bytes of film", "s a play", "us a tick", "ns a pixel"), rows)


def pipelines(setting):
    """Yields what a tick costs by how much its port shows, and by how many lines stand before it, in a `setting`."""
    kinds = [(count, lines) for count in PIPELINES for lines in (FEW, MANY)]
    costs = {kind: [] for kind in kinds}
    for _ in range(setting.runs):
        for kind in kinds:
            costs[kind].append(piece(film_seconds, lambda number, kind=kind: pipelines_script(*kind, number), PIPELINE_TICKS))
    rows = []
    for count in PIPELINES:
        after_few, after_many = costs[count, FEW], costs[count, MANY]
        bare = spread(ratios(after_few, costs[0, FEW]))
        rows.append((str(count), spread(after_few, 1e6), bare, spread(ratios(after_many, after_few))))
    heads = ("Pipelines", f"us a tick after {FEW:,} lines", "over none", f"after {MANY:,} lines, over the same")
    yield Table("A port of 64x48 without a context, under pipelines of 32x24 pixels that are blended:", heads, rows)


def names(setting):
    """Yields what lines with a name each cost: to read alone, where the end is missing and nothing is played, and to play, in a
    `setting`."""
    source, rows = setting.folder / "script.wfs", []
    for lines in (MOST_TICKS // 2, MOST_TICKS):
        whole = names_script(lines)
        for what, text, status in (("read", whole.removesuffix(END), NO_END), ("read and played", whole, 0)):
            source.write_bytes(text)
            times = [film_seconds(source, status=status) for _ in range(setting.runs)]
            costs = spread(times, digits=3), spread(times, 1e6 / lines), spread(times, 1e9 / len(text), 1)
            rows.append((f"{lines:,}", f"{len(text):,}", what, *costs))
    yield Table("Lines that each bind a name of their own:", ("Lines", "Bytes", "What", "s", "us a line", "ns a byte"), rows)


def rounds(setting):
    """Returns what rounds cost that make a stream, show it and destroy it, in a `setting`."""
    source, film, rows = setting.folder / "script.wfs", setting.folder / "film", []
    for count in ROUNDS:
        source.write_bytes(rounds_script(count))
        times = [film_seconds(source, film) for _ in range(setting.runs)]
        rows.append((f"{count:,}", f"{film.stat().st_size:,}", spread(times, digits=3), spread(times, 1e6 / count, 1)))
    caption = "Rounds of a stream that is made, shown in a frame of 64x48, and destroyed:"
    return Table(caption, ("Rounds", "Bytes of film", "s a play", "us a round"), rows)


def event_costs(event):
    """Returns what an `event` costs in one run beside each number of streams and sources."""
    return [piece(film_seconds, lambda count, kept=kept: events_script(*kept, event, count), EVENT_COUNT) for kept in KEPT]


def scenes(setting):
    """Yields what rounds of creation, showing and destruction cost, and what an event costs by how much is live, in a `setting`."""
    yield rounds(setting)
    rows = []
    for event in EVENTS:
        costs = list(zip(*(event_costs(event) for _ in range(setting.runs))))
        rows.append((f"`{event}`", *(spread(beside, 1e6) for beside in costs), spread(ratios(costs[-1], costs[0]))))
    caption = f"An event of {EVENT_COUNT:,}, its line included:"
    heads = ("Event", "us beside 1 stream", "60 streams", "60 streams and 256 sources", "over the first")
    yield Table(caption, heads, rows)
