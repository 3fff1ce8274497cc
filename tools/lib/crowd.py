"""Scripts at random in which seven clients draw, post, commit, compose and destroy, beside one another and beside the clock, what client 0
made for all of them in the setup, and what they make for themselves."""

CLIENTS = range(1, 8)
SMALL = (1, 2, 3, 5, 8, 13)
# The sides of the port; in the last, a picture is painted by two bands of rows where they are asked for.
PORTS = ((1, 1), (16, 12), (40, 30), (64, 48), (64, 48), (512, 256))
FORMATS = ("rgba", "pre", "rgbx")
# What the clients do, each with how often: the functions of these names.
DEEDS = {
    "draw": 30, "paint": 10, "move": 20, "order": 10, "commit": 25, "compose": 20, "ask": 25, "display": 20, "own": 12, "destroy": 12,
    "switch": 6, "end": 1,
}


class Crowd:
    """A script that is written line by line, by a source of random numbers."""

    def __init__(self, chance):
        self.chance = chance
        self.port = chance.choice(PORTS)
        self.made = 0
        self.lines = ["WFS1", "port {}x{}".format(*self.port), "pipes 1"]

    def add(self, client, *words):
        """One more line."""
        self.lines.append(" ".join(map(str, (client, *words))))

    def color(self):
        """The four numbers of a colour."""
        return [self.chance.randrange(256) for _ in range(4)]

    def fill(self):
        """A paint."""
        what = self.chance.choice(("fill", "ramp", "checker"))
        return {"fill": ["fill"], "ramp": ["ramp", *self.color()], "checker": ["checker", 2, *self.color()]}[what] + self.color()

    def place(self):
        """The four numbers of a rectangle that lies on the port in part."""
        width, height = self.port
        return [self.chance.randint(-3, width), self.chance.randint(-3, height), self.side(), self.side()]

    def side(self):
        """A small side."""
        return self.chance.choice(SMALL)

    def shown(self, client, end, context, stream=None):
        """A layer of a context under names with this end, and its stream where it has one of its own."""
        width, height = self.side(), self.side()
        if stream is None:
            stream = f"s{end}"
            self.add(client, stream, self.chance.choice(("= stream", "= queue")), width, height, self.chance.choice(FORMATS),
                     self.chance.choice((2, 3)))
        else:
            width, height = 1, 1
        self.add(client, f"x{end}", "= source d", context, stream)
        self.add(client, f"e{end}", "= element d", context)
        self.add(client, "set d", f"e{end}", "source", f"x{end}")
        self.add(client, "set d", f"e{end}", "srcrect 0 0", width, height)
        self.add(client, "set d", f"e{end}", "dest", *self.place())
        self.add(client, "insert d", f"e{end}", "none")
        self.add(client, "frame", stream, *self.fill())

    def setup(self):
        """What client 0 makes for all: a context of the screen, one of a stream, a layer for each client, and one by a pipeline."""
        width, height = self.side(), self.side()
        for line in "d = device", "c = screen d 1", f"t = stream {width} {height} pre 3", "o = offscreen d t":
            self.add(0, line)
        for client in CLIENTS:
            self.shown(0, client, "o" if client > 5 else "c")
        self.shown(0, 8, "c", "t")
        for line in "w = wsource 1 s1", "lset 1 srcrect 0 0 1 1", "lset 1 dest 0 0 1 1", "lport 1 1", "lsource 1 w now", "commit_device":
            self.add(0, line)
        for line in "commit d c", "commit d o", "activate d c":
            self.add(0, line)
        if self.chance.random() < 0.5:
            self.add(0, "activate d o")

    def deed(self, client):
        """What a client does next, in one line or a few: mostly to what is its own, and now and then to what is another's."""
        what = self.chance.choices(list(DEEDS), DEEDS.values())[0]
        getattr(self, what)(client, self.chance.choice((client, client, self.chance.choice(CLIENTS))))

    def draw(self, client, end):
        self.add(client, f"frame s{end}", *self.fill())

    def paint(self, client, end):
        self.add(client, f"acquire s{end}")
        self.add(client, "paint", *self.fill())
        self.add(client, self.chance.choice(("post", "post", "discard")))

    def move(self, client, end):
        self.add(client, f"set d e{end} dest", *self.place())
        self.add(client, f"set d e{end}", self.chance.choice(("rotation 90", "rotation 0", "flip 1", "alpha 200")))
        self.add(client, f"set d e{end} transparency", self.chance.choice(("none", "alpha", "source", "alpha+source")))

    def order(self, client, end):
        self.add(client, self.chance.choice((f"insert d e{end} none", f"insert d e{end} e2", f"remove d e{end}")))

    def commit(self, client, _):
        self.add(client, "commit d", self.chance.choice("cco"))

    def compose(self, client, _):
        self.add(client, self.chance.choice(("compose d", "trycompose d")), self.chance.choice("oooc"))

    def ask(self, client, end):
        self.add(client, self.chance.choice(("stat streams", "stat bytes", "error d", "derror", f"above d e{end}", f"get d e{end} dest 0")))

    def display(self, client, _):
        self.add(client, "lsource 1", self.chance.choice(("w", "w", "none")), self.chance.choice(("now", "vsync")))
        self.add(client, "pset 1 background", *self.color()[:3])
        self.add(client, self.chance.choice(("commit_pipe 1", "commit_port 1", "commit_device")))

    def own(self, client, _):
        self.made += 1
        self.shown(client, f"{client}_{self.made}", self.chance.choice("cco"))

    def destroy(self, client, end):
        self.add(client, self.chance.choice((f"del_source d x{end}", f"del_stream s{end}", f"del_element d e{end}", "del_stream t")))

    def switch(self, client, _):
        verb = self.chance.choice(("activate d o", "deactivate d o", "activate d c", "deactivate d c", "attach 1 0", "attach 1 1"))
        self.add(client, verb)

    def end(self, client, _):
        self.add(client, self.chance.choice(("del_context d o", "del_wsource w", "del_device d")))


def crowd(chance, deeds=12, ticks=8):
    """A script in which each client does so much, while the clock has so many ticks."""
    script = Crowd(chance)
    script.setup()
    turns = [client for client in CLIENTS for _ in range(deeds)] + [0] * ticks
    chance.shuffle(turns)
    for client in turns:
        if client:
            script.deed(client)
        else:
            script.add(0, "tick")
    return "\n".join(script.lines + ["end", ""])
