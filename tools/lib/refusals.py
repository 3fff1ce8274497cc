"""What the prover says of a crate with a wrong body: which goals of which functions it does not prove, and why that is so."""

import re
from typing import NamedTuple

# A goal that an answer of ours does not prove, with the folder of its function, and what is said of it.
ANSWER = re.compile(r"^(?:\./)?proofs/((?:[^/:\s]+/)*)(?:Answers|Invariants|Proof)\.antt:\d+:\d+: error: `([^`]*)`: (.*)$")
# What else a file of proofs has that is no longer so.
LEMMA = re.compile(r"^(?:note: )?(?:\./)?(?:proofs|specs)/(\S+?)\.antt:\d+:\d+: (?:error: )?(.*)$")
# A function without a proof, and why.
FUNCTION = re.compile(r"^fn (.+?): (?:no proof: (.*)|not proved.*)$")
SEARCHED = re.compile(r"`search` did not prove (.*)$")
CALLS = re.compile(r"it calls `([^`]*)`, which is not proved")
NAME = re.compile(r"`([^`]*)`")
# A proof names what the edit took away.
LOST = re.compile(r"has no field|is not in scope|has no `|was not admitted")
# What stands on something that was refused above, and the goals of a function that stand on a lemma among its answers.
FOLLOWS = re.compile(r"which was rejected, w\w+ not checked")
GOALS_ON_LEMMA = re.compile(
    r"^(?:\./)?proofs/((?:[^/:\s]+/)*)(?:Answers|Invariants|Proof)\.antt:\d+:\d+: error: .* on `([^`]*)`, .* not checked: (.*)$"
)
CLAUSE = re.compile(r"-clause-([a-z_]\w*)")
CONDITION = re.compile(r"^(.*?)-requires\b")

CLAUSES, INVARIANT, LOOP, CALLEE, SAFETY, ROW, NAMES = "clause", "invariant", "loop", "condition", "safety", "row", "names"
# What says something of what the function promises.
TELLING = (CLAUSES, INVARIANT, LOOP, ROW)


class Goal(NamedTuple):
    """A goal that is not proved: its function, its name, and of what kind it is."""

    function: str
    name: str
    kind: str


class Refusal(NamedTuple):
    """What refused an edit: the goals that are not proved, and the functions that have no proof without those that have them."""

    goals: tuple
    above: tuple

    @property
    def flag(self):
        """What is to be said against it, or nothing."""
        kinds = {goal.kind for goal in self.goals}
        if kinds & set(TELLING):
            return ""
        if kinds <= {NAMES}:
            return "by a lost name alone"
        return "by a callee's condition alone" if CALLEE in kinds else "by what is safe alone"


def kind_of(name):
    """Of what kind a goal of this name is."""
    if CONDITION.match(name) and not name.startswith("returns"):
        return CALLEE
    for start, kind in ("returns", CLAUSES), ("invariant_of", INVARIANT), ("loop", LOOP):
        if name.startswith(start):
            return kind
    return SAFETY


def clause_of(name):
    """The name of the clause that a goal is of, or nothing for one without a name."""
    found = CLAUSE.search(name)
    return found[1] if found else ""


def by_answers(line):
    """The goal of a line that says that an answer does not fit."""
    found = ANSWER.match(line)
    if not found:
        return None
    function = found[1].rstrip("/").replace("/", "::")
    return Goal(function, found[2], NAMES if LOST.search(found[3]) else kind_of(found[2]))


def by_lemma(line):
    """The goal of a line of another file of definitions or proofs, as a worked row that a wrong definition breaks."""
    found = LEMMA.match(line)
    if not found or "error: " not in line or FOLLOWS.search(line):
        return None
    named = NAME.search(found[2])
    return Goal(found[1], named[1] if named else "", NAMES if LOST.search(found[2]) else ROW)


def by_follows(line, goals):
    """The goals of a function of a line that says that they stand on a lemma which is refused, but for one that lost a name, by the
    `goals` before."""
    found = GOALS_ON_LEMMA.match(line) if FOLLOWS.search(line) else None
    function = found[1].rstrip("/").replace("/", "::") if found else ""
    if not found or Goal(function, found[2], NAMES) in goals:
        return []
    names = [name.partition(" ")[0] for name in found[3].split(", ")]
    return [Goal(function, name, kind_of(name)) for name in names if kind_of(name) in TELLING]


def by_function(crate, line):
    """The goals that no search proved of the function of a line, and the function, where it has no proof without another one."""
    found = FUNCTION.match(line)
    if not found or not found[2]:
        return [], None
    function = found[1].removeprefix(f"{crate}::")
    searched = SEARCHED.search(found[2])
    if searched:
        return [Goal(function, name, kind_of(name)) for name in NAME.findall(searched[1])], None
    return [], function if CALLS.search(found[2]) else None


def refusal_of(crate, text):
    """What refused a crate, from all that the prover said."""
    goals, above = [], []
    for line in text.splitlines():
        goal = by_answers(line) or by_lemma(line)
        found, function = by_function(crate, line)
        goals += ([goal] if goal else by_follows(line, goals)) + found
        above += [function] if function else []
    return Refusal(tuple(dict.fromkeys(goals)), tuple(dict.fromkeys(above)))


def told(refusal):
    """One line of what refused an edit: each function with its goals, and for whom it has no proof."""
    functions = {}
    for goal in refusal.goals:
        functions.setdefault(goal.function, []).append(goal.name if goal.kind != NAMES else f"({goal.name})")
    parts = [f"{function} {' '.join(names)}" for function, names in functions.items()]
    return "; ".join(parts) + (f" > {' '.join(refusal.above)}" if refusal.above else "")


def is_file(name):
    """Whether a name is that of a file of definitions or proofs, and not of a function."""
    return "/" in name or "::" not in name and name[:1].isupper()


def read(line):
    """The refusal that a line tells."""
    body, _, above = line.partition(" > ")
    goals = []
    for part in filter(None, body.split("; ")):
        function, *names = part.split(" ")
        for name in names:
            lost = name.startswith("(")
            kind = NAMES if lost else ROW if is_file(function) else kind_of(name)
            goals.append(Goal(function, name.strip("()"), kind))
    return Refusal(tuple(goals), tuple(above.split()))
