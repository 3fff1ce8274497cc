"""Counts the instructions of an event, a tick, a pixel of each kind and a paint of each kind, which tools/count-instructions keeps."""

from lib.instructions import instructions
from lib.measuring import piece
from lib.program import PROGRAM
from lib.tables import Table

# The sides of two screens, and how often something is done in two plays.
SIDES, TIMES = (32, 64), (4, 12)
EVENTS = (200, 600)
# An element's stream, its attributes, and what stands in it.
OPAQUE, ALPHA = "rgbx", "rgba"
KINDS = {
    "copied": (OPAQUE, "", 1),
    "blended": (ALPHA, "0 set d e transparency source\n", 1),
    "faded": (OPAQUE, "0 set d e transparency alpha\n0 set d e alpha 100\n", 1),
    "turned": (OPAQUE, "0 set d e rotation 90\n", 1),
    "enlarged": (OPAQUE, "", 2),
    "enlarged and blended": (ALPHA, "0 set d e transparency source\n", 2),
}
PAINTS = {
    "fill": "fill 200 100 50 200",
    "box": "box 0 0 1024 1024 200 100 50 200",
    "checker": "checker 4 1 2 3 255 200 100 50 200",
    "ramp": "ramp 1 2 3 255 200 100 50 200",
}
# The sides of a write buffer of which one row is painted.
ROW = 64


def played(script):
    """Returns the instructions of a play of a `script`."""
    return instructions([PROGRAM, "film"], script.encode("ascii"))


def each(head, event, times):
    """Returns the instructions of one `event` after a `head`, between two plays with as many of them as `times` says."""
    few, many = times
    return piece(played, lambda count: head + event * count + "end\n", many, few)


def scene(side, stream, attributes, scale):
    """Returns a script that shows one window over a screen of a `side`, of a `stream` that is as many times smaller as `scale` says, by an
    element of the `attributes`."""
    own = side // scale
    return (
        f"WFS1\nport {side}x{side}\n0 s = stream {own} {own} {stream} 2\n0 d = device\n0 c = screen d 1\n0 x = source d c s\n"
        f"0 e = element d c\n0 set d e source x\n0 set d e srcrect 0 0 {own} {own}\n0 set d e dest 0 0 {side} {side}\n"
        f"{attributes}0 insert d e none\n"
        "0 frame s fill 200 100 50 200\n0 commit d c\n0 activate d c\n"
    )


def stream_of(side):
    """Returns a script with a stream of a `side`."""
    return f"WFS1\nport 8x8\n0 s = stream {side} {side} rgba 2\n"


def pixel(head_of, event):
    """Returns the instructions of a pixel of an `event`, after the heads that `head_of` makes for two sides."""
    small, large = (each(head_of(side), event, TIMES) for side in SIDES)
    return (large - small) / (SIDES[1] ** 2 - SIDES[0] ** 2)


def counts():
    """Yields what is counted, with its instructions."""
    yield "an event, a register asked for its error", each("WFS1\nport 8x8\n0 d = device\n", "0 error d\n", EVENTS)
    yield "a tick of 8x8 with one layer", each(scene(8, OPAQUE, "", 1), "0 tick\n", TIMES)
    for kind, (stream, attributes, scale) in KINDS.items():
        yield f"a pixel {kind}", pixel(lambda side: scene(side, stream, attributes, scale), "0 tick\n")
    for kind, words in PAINTS.items():
        yield f"a pixel painted by {kind}", pixel(stream_of, f"0 frame s {words}\n")
    yield f"a frame of {ROW}x{ROW} with a row painted", each(stream_of(ROW), f"0 frame s row 1 {'c8643264' * ROW}\n", TIMES)


def counted(_):
    """Yields the table of what is counted, for tools/bench, in any setting."""
    yield Table("By `wfplay film`:", ("What", "Instructions"), [(name, f"{count:,.1f}") for name, count in counts()])
