"""Scripts at random, with every verb: small scenes that are built up, changed and torn down, with wrong handles and numbers among them."""

from lib.grammar import PAINTS
from lib.verbs import ATTRIBUTES, CREATIONS, VERBS, WORDS

SIDES = (1, 2, 3, 4, 5, 7)
BUILDS = ("stream", "queue", "source", "element", "mask", "wsource")
OFTEN = ("set", "insert", "commit", "frame", "tick", "lset", "lsource", "activate", "commit_device", "lport", "compose")
MAKERS = {"d": "device", "c": "context", "s": "stream", "x": "source", "m": "mask", "e": "element", "w": "wsource"}
OF = {"screen": "c", "offscreen": "c", "stream": "s", "queue": "s", "source": "x", "mask": "m", "element": "e", "wsource": "w",
      "device": "d"}
# The letters of the handles that a verb names, one after another.
HANDLES = {
    "acquire": "s", "frame": "s", "del_stream": "s", "error": "d", "del_device": "d", "cset": "dc", "cget": "dc", "commit": "dc",
    "activate": "dc", "deactivate": "dc", "compose": "dc", "trycompose": "dc", "del_context": "dc", "del_source": "dx",
    "del_mask": "dm", "set": "de", "get": "de", "insert": "dee", "remove": "de", "above": "de", "below": "de", "del_element": "de",
    "del_wsource": "w", "lsource": "w", "screen": "d", "offscreen": "ds", "source": "dcs", "mask": "dcs", "element": "dc", "wsource": "s",
}


class Writer:
    """A script that is written line by line, by a source of random numbers."""

    def __init__(self, chance):
        self.chance = chance
        self.ports = chance.randint(1, 2)
        self.pipes = chance.randint(0, 3)
        self.names = {letter: [] for letter in MAKERS}
        self.made = 0
        self.lines = ["WFS1"]
        for _ in range(self.ports):
            modes = [f"{self.side()}x{self.side()}" for _ in range(chance.randint(1, 2))]
            self.lines.append("port " + " ".join(modes))
        self.lines += [f"pipes {self.pipes}"] * (self.pipes > 0)

    def side(self):
        """A small side."""
        return self.chance.choice(SIDES)

    def color(self):
        """The four numbers of a colour."""
        return [self.chance.choice((0, 1, 100, 128, 200, 254, 255)) for _ in range(4)]

    def paint(self):
        """A paint."""
        what = self.chance.choice(list(PAINTS))
        if what == "row":
            return ["row", self.chance.randint(0, 5), bytes(self.chance.randrange(256) for _ in range(4 * self.side())).hex()]
        start = {"fill": [], "box": [self.chance.randint(-2, 4) for _ in range(2)] + [self.side(), self.side()],
                 "checker": [self.side()], "ramp": []}[what]
        return [what, *start, *self.color(), *(self.color() if what in ("checker", "ramp") else [])]

    def value(self, of, name):
        """What an attribute is set to."""
        chance, kind = self.chance, ATTRIBUTES[of][name]
        if kind == "handle":
            return [self.handle("x" if name == "source" else "m")]
        if isinstance(kind, str):
            return [chance.choice(WORDS[kind])]
        if name == "srcrect":
            return [chance.choice((0, 0, 0, 1, -1)), chance.choice((0, 0, 0, 1)), self.side(), self.side()]
        if name == "dest":
            return [chance.randint(-2, 4), chance.randint(-2, 4), self.side(), self.side()]
        if name == "background":
            return self.color()[:kind]
        known = {"rotation": (0, 90, 180, 270, 45), "flip": (0, 1, 2), "alpha": (0, 128, 255, 256), "power": (0, 1, 1), "mode": (1, 2, 3)}
        return [chance.choice(known.get(name, (0, 1)))]

    def handle(self, letter):
        """The name of an object, mostly a late one and of this kind."""
        chance = self.chance
        if chance.random() < 0.04:
            letter = chance.choice(list(MAKERS))
        names = self.names[letter]
        if not names or chance.random() < 0.02:
            return "none"
        return names[-1 - min(int(chance.expovariate(0.9)), len(names) - 1)]

    def words(self, verb, form):
        """The words of a verb."""
        handles = iter(HANDLES.get(verb, ""))
        for kind in form:
            what, _, of = kind.partition(" ")
            if kind == "handle":
                yield self.handle(next(handles))
            elif kind == "paint":
                yield from self.paint()
            elif what in ("set", "get"):
                name = self.chance.choice(list(ATTRIBUTES[of]))
                yield name
                yield from self.value(of, name) if what == "set" else [self.chance.randint(0, 4)]
            elif kind == "number":
                yield self.chance.randint(0 if self.chance.random() < 0.1 else 1, 2)
            else:
                yield self.chance.choice(WORDS[kind])

    def line(self, client):
        """Writes an event line of a client."""
        chance = self.chance
        draw = chance.random()
        if draw < 0.3:
            verb = chance.choice(BUILDS) if draw < 0.25 else chance.choice(list(CREATIONS))
        else:
            verb = chance.choice(OFTEN) if draw < 0.8 else chance.choice(list(VERBS))
        client = 0 if verb == "tick" else client
        words = list(self.words(verb, CREATIONS[verb] if verb in CREATIONS else VERBS[verb]))
        if verb == "stream":
            words = [self.side(), self.side(), chance.choice(WORDS["format"]), chance.choice((2, 2, 3, 4, 1))]
        if verb == "queue":
            words = [self.side(), self.side(), chance.choice(WORDS["format"]), chance.choice((1, 1, 2, 3, 8, 9))]
        if verb in CREATIONS:
            self.write_creation(client, verb, words)
        else:
            self.lines.append(" ".join(map(str, [client, verb, *words])))

    def write_creation(self, client, verb, words):
        """Writes a line that makes something under a new name, which all see while no other client has spoken."""
        self.made += 1
        name = f"{OF[verb]}{self.made}"
        self.lines.append(" ".join(map(str, [client, name, "=", verb, *words])))
        self.names[OF[verb]].append(name)

    def scene(self):
        """Writes a layer that shows."""
        self.write_creation(0, self.chance.choice(("stream", "queue")), [4, 3, self.chance.choice(("rgba", "pre", "rgbx")), 3])
        stream = self.names["s"][-1]
        self.write_creation(0, "source", [self.names["d"][0], self.names["c"][0], stream])
        self.write_creation(0, "element", [self.names["d"][0], self.names["c"][0]])
        device, element, source = self.names["d"][0], self.names["e"][-1], self.names["x"][-1]
        place = " ".join(map(str, self.value("element", "dest")))
        self.lines += [f"0 set {device} {element} source {source}", f"0 set {device} {element} srcrect 0 0 4 3",
                       f"0 set {device} {element} dest {place}", f"0 insert {device} {element} none",
                       f"0 frame {stream} " + " ".join(map(str, self.paint()))]


def script(chance, length=60):
    """A script of about so many event lines."""
    writer = Writer(chance)
    writer.write_creation(0, "device", [])
    writer.write_creation(0, "screen", ["d1", 1])
    for _ in range(chance.randint(0, 2)):
        writer.scene()
    writer.lines += ["0 commit d1 c2", "0 activate d1 c2"]
    setup = len(writer.lines) + length // 2
    while len(writer.lines) < setup:
        writer.line(0)
    # Names that are bound from here on are seen by client 0 alone, which alone uses them.
    seen = {letter: list(names) for letter, names in writer.names.items()}
    others = Writer.__new__(Writer)
    others.__dict__.update(writer.__dict__, names=seen)
    while len(writer.lines) < setup + length // 2:
        client = chance.choice((0, 0, 1, 2))
        if client:
            before = len(writer.lines)
            others.made = writer.made
            others.line(client)
            writer.made = others.made
            if " = " in writer.lines[before]:
                seen_name = writer.lines[before].split()[1]
                seen[seen_name[0]].remove(seen_name)
        else:
            writer.line(0)
    return "\n".join(writer.lines + ["0 tick", "0 stat streams", "0 stat bytes", "end", ""])


def mangled(chance, text):
    """A script with a few of its bytes left out, doubled or changed, and some of its words taken from elsewhere in it."""
    data = bytearray(text.encode())
    words = text.split()
    for _ in range(chance.randint(1, 3)):
        place = chance.randrange(len(data))
        draw = chance.random()
        if draw < 0.3:
            del data[place : place + chance.randint(1, 12)]
        elif draw < 0.6:
            data[place : place + 1] = chance.choice((b" ", b"\t", b"\r", b"\n", b"#", b"=", b"-", b"0", b"a", b"_", b"x", b"\x7f", b"\xff"))
        else:
            start = data.rfind(b" ", 0, place) + 1
            after = data.find(b" ", place)
            data[start : after if after >= 0 else len(data)] = chance.choice(words).encode()
        data = data or bytearray(b"W")
    return bytes(data)
