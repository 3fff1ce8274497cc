"""Measures what the border to C costs, and a picture that goes over it, for tools/bench."""

import re
from collections import defaultdict

from lib.c_library import ARCHIVE, NoArchive, install
from lib.measuring import printed
from lib.program import TOP
from lib.tables import Left, Table, spread
from lib.tool import Refused

SOURCE = TOP / "tools/lib/costs.c"
# The kinds of calls that lib/costs.c makes, and how many of each are counted.
CALLS = {
    "stat": "`wk_stat`, which is the cheapest",
    "set": "`wk_element_set`",
    "make": "an element made and destroyed",
    "commit": "`wk_commit`",
}
COUNT = 2000
# The function that C calls, and the one inside.
BORDER = ("wk_call", "wf_host::host::Host::call")
COPIED = re.compile(
    r"^a copy of (\w+) takes (\d+) us; submitted ([\d.]+) of it, an empty port painted ([\d.]+), read ([\d.]+), read blue first ([\d.]+)$"
)
COPIES = ("`wk_submit`: the write buffer is cleared, the rows are copied", "`wk_paint` of a port without a layer", "`wk_read_frame`",
          "`wk_read_frame`, blue first")


def built(folder):
    """Returns the program of lib/costs.c, which is built into a `folder` with the library."""
    program = folder / "costs"
    install(ARCHIVE, folder)
    printed(["cc", "-O2", f"-I{folder}/include", SOURCE, f"{folder}/lib/libweklandu.a", "-o", program])
    return program


def inside(program, kind):
    """Returns the instructions of calls of a `kind` that a `program` makes from C, and of these inside of the border."""
    kept = program.with_suffix(".counts")
    printed(["valgrind", "--tool=callgrind", f"--callgrind-out-file={kept}", program, kind, str(COUNT)])
    told = printed(["callgrind_annotate", "--inclusive=yes", "--threshold=100", kept])
    lines = re.findall(rf"^\s*([\d,]+) .*:({'|'.join(BORDER)}) ", told, re.M)
    found = {name: int(count.replace(",", "")) for count, name in lines}
    if len(found) < len(BORDER):
        raise Refused(f"callgrind_annotate does not tell of {' and '.join(BORDER)}")
    return [found[name] for name in BORDER]


def library(setting):
    """Yields the instructions of calls from C beside the same inside, and what moves a picture beside a copy of it, in a `setting`."""
    try:
        program = built(setting.folder)
    except NoArchive as fault:
        yield Left("the library", str(fault))
        return
    rows = []
    for kind, what in CALLS.items():
        from_c, own = inside(program, kind)
        rows.append((what, f"{from_c / COUNT:,.0f}", f"{own / COUNT:,.0f}", f"{from_c / own:.2f}"))
    yield Table("Instructions of a call:", ("Call", "from C", "inside", "over the call inside"), rows)
    costs = defaultdict(list)
    for _ in range(setting.runs):
        copied = COPIED.match(printed([program, "copies"]))
        if copied is None:
            raise Refused("lib/costs.c prints what is not read")
        size, took, *over = copied.groups()
        costs[f"`memcpy` of {size}"].append((int(took), 1.0))
        for what, ratio in zip(COPIES, over):
            costs[what].append((int(took) * float(ratio), float(ratio)))
    rows = [(what, *(spread(own, digits=digits) for own, digits in zip(zip(*values), (0, 2)))) for what, values in costs.items()]
    caption = f"The least of 40 rounds by the clock; the archive has {ARCHIVE.stat().st_size:,} bytes:"
    yield Table(caption, ("What", "us", "over the `memcpy`"), rows)
