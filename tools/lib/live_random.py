"""Inputs of the live core at random: a window manager that builds scenes up and tears them down, as lib/sessions.py does it, apps that draw
beside it, ticks, clients that leave, and messages that are wrong. Each number makes the same one again."""

import io

from lib.live import APPS, BROKER, CLIENTS, LENGTH, MANAGER, MOST_TOLD, NUMBERS, OUTPUT, body, framed
from lib.serving import Live, band, film_frame
from lib.sessions import DEEDS, EDGES, Writer
from lib.wire import NAMED, PAINTS

# Who does something next, each with how often; and what an app does, the methods of these names.
WHO = {"manager": 10, "app": 14, "tick": 4, "shift": 2, "leave": 0.4, "change_output": 0.6, "noise": 1.5, "speech": 1}
APP_DEEDS = {"make": 3, "draw_own": 8, "put_some": 4, "give": 2, "destroy": 1, "ask_size": 1, "wait_for": 1.5, "foreign": 1, "paint_any": 2}
OF_PAINTS = sorted(PAINTS)
BYTES_OF = {"rgba": 4, "pre": 4, "rgbx": 4, "a8": 1}


class LiveWriter(Writer):
    """An input that is written message by message, and answered at once by the model: its frames, the answers, and the pictures of ports,
    as frames and as bands."""

    # The apps that do something, each as often as it stands here.
    AT_WORK = (1, 1, 2, 3, 7)

    # A writer of sessions begins one of its own, so its beginning is not this one's.
    def __init__(self, chance):  # pylint: disable=super-init-not-called
        self.chance = chance
        self.ports = [(self.side(), chance.choice((1, 1, 4)) * self.side()) for _ in range(chance.choice((1, 1, 2, 3)))]
        self.pipes = chance.choice((0, 1, 2, 4))
        self.input, self.output, self.frames, self.bands = io.BytesIO(), [], io.BytesIO(), io.BytesIO()
        self.live = Live(self.ports, self.pipes, self.put_picture)
        self.machine = self.live.machine
        self.client = MANAGER

    def put_picture(self, *picture):
        """Writes a picture as a frame and as a band."""
        self.frames.write(film_frame(*picture))
        self.bands.write(band(*picture))

    def send(self, client, data):
        """Sends the bytes of a message of a client. Returns the value of its own answer, or 0 where that comes later."""
        self.input.write(framed(bytes([client]), data))
        answers = self.live.answers(client, data)
        self.output += [framed(bytes([other]), answer) for other, answer in answers]
        own = [answer for other, answer in answers if (other, answer[0]) == (client, data[0])]
        return int.from_bytes(own[-1][2:6], "big") if own else 0

    def say(self, name, *values):
        """Sends a message of the client that has the turn, by its name."""
        return self.send(self.client, body(name, *values))

    def begin(self):
        """Makes a context of the screen of port 1, which is composed by ticks."""
        self.client = MANAGER
        device = self.say("DeviceNew")
        context = self.say("ScreenContext", device, 1)
        self.say("Activate", device, context)

    # Who does something.

    def turn(self):
        """Lets somebody do something."""
        getattr(self, self.chance.choices(list(WHO), WHO.values())[0])()

    def manager(self):
        """Lets the window manager do something."""
        self.client = MANAGER
        getattr(self, self.chance.choices(list(DEEDS), DEEDS.values())[0])()

    def app(self):
        """Lets an app do something."""
        self.client = self.chance.choice(self.AT_WORK)
        getattr(self, self.chance.choices(list(APP_DEEDS), APP_DEEDS.values())[0])()

    def tick(self):
        """Ticks."""
        self.send(OUTPUT, body("tick"))

    def shift(self):
        """Lets the window manager move a small image over what a context shows, or over a port, and ticks each time."""
        self.client = MANAGER
        stream = self.stream("rgba", "rgbx")[0]
        self.draw_into(stream)
        if self.pipes and self.chance.random() < 0.4:
            self.shift_plane(stream)
        else:
            self.shift_layer(stream)
        self.say("StreamDestroy", stream)

    def spot(self):
        """Returns a rectangle somewhere in a port."""
        return [self.chance.randint(-1, 3), self.chance.randint(-1, self.chance.choice(self.ports)[1]), self.side(), self.side()]

    def shift_layer(self, stream):
        """Moves an element of a context that shows a stream, and then takes it away."""
        device, context, _ = self.pair("context")
        source, element = self.say("SourceNew", device, context, stream), self.say("ElementNew", device, context)
        self.say("ElementSet", device, element, "source", source)
        self.say("ElementSet", device, element, "srcrect", [0, 0, 1, 1])
        self.say("ElementInsert", device, element, 0)
        for _ in range(self.chance.randint(1, 4)):
            self.say("ElementSet", device, element, "dest", self.spot())
            self.say("Commit", device, context)
            self.say("Activate", device, context)
            self.tick()
        self.say("ElementDestroy", device, element)
        self.say("SourceDestroy", device, source)

    def shift_plane(self, stream):
        """Moves a pipeline that shows a stream."""
        pipe = self.number(self.pipes)
        source = self.say("DisplaySource", pipe, stream)
        self.say("PipeSet", pipe, "srcrect", [0, 0, 1, 1])
        self.say("PipeBindPort", pipe, self.number(len(self.ports)))
        self.say("PipeBindSource", pipe, source, "now")
        for _ in range(self.chance.randint(1, 4)):
            self.say("PipeSet", pipe, "dest", self.spot())
            self.say("CommitPipe", pipe)
            self.tick()

    def leave(self):
        """Lets a client be gone, mostly an app."""
        client = self.chance.choice((*APPS, 1, 2, 3, MANAGER, OUTPUT, -1, 9))
        self.send(BROKER, body("gone", client))

    def change_output(self):
        """Lets the output be gone, and now and then another one tick, or the window manager look, before anything else comes."""
        self.send(BROKER, body("gone", OUTPUT))
        if self.chance.random() < 0.3:
            self.client = MANAGER
            self.show()
        if self.chance.random() < 0.5:
            self.tick()

    def speech(self):
        """Lets a client tell another one something."""
        count = self.chance.choice((0, 1, 13, 13, MOST_TOLD, MOST_TOLD + 1) if self.is_astray() else (0, 1, 13))
        other = self.chance.choice((*CLIENTS, MANAGER, MANAGER, -1, 9))
        self.send(self.chance.choice((*CLIENTS, 9)), body("tell", other, data=self.chance.randbytes(count)))

    def noise(self):
        """Sends a message that is wrong somewhere: a number, a client, a length or an argument."""
        client = self.chance.choice((*CLIENTS, 9, 254, BROKER))
        number = self.chance.choice((*range(58), *NUMBERS.values(), 255))
        count = self.chance.choice((0, 1, 2, 3, 4, 6, 7, 8, 9))
        numbers = (self.chance.choice((*EDGES, 1, 2, 3, 4, 5)) for _ in range(count))
        data = b"".join(each.to_bytes(8, "big", signed=True) for each in numbers)
        self.send(client, bytes([number]) + data + self.chance.randbytes(self.chance.choice((0, 0, 0, 1, 4))))

    # What apps do.

    def own_stream(self):
        """Returns the handle of a stream of the app's, mostly a late one, or any."""
        own = sorted(stream for stream, maker in self.live.makers.items() if maker == self.client)
        return own[-1 - min(int(self.chance.expovariate(0.7)), len(own) - 1)] if own and not self.is_astray() else self.handle(None)

    def make(self):
        """Makes a stream."""
        self.stream("rgba", "pre", "rgbx", "a8")

    def draw_own(self):
        """Draws an image of a stream."""
        self.draw_into(self.own_stream())

    def put_some(self):
        """Puts a rectangle of pixels, which mostly is inside of the canvas, and then mostly shows it."""
        self.say("Acquire", self.own_stream())
        canvas = self.live.hands[self.client].canvas
        w, h, size = (canvas.stream.w, canvas.stream.h, BYTES_OF[canvas.stream.form]) if canvas else (2, 2, 4)
        width, height = self.chance.randint(1, w), self.chance.randint(1, h)
        x, y = self.chance.randint(0, w - width), self.chance.randint(0, h - height)
        if self.chance.random() < 0.2:
            x, y, width, height = (each + self.chance.choice((0, 0, 1, -1)) for each in (x, y, width, height))
        count = max(0, width * height * size + (self.chance.choice((-1, 1, size)) if self.is_astray() else 0))
        self.send(self.client, body("put", x, y, width, height, data=self.chance.randbytes(count)))
        if self.chance.random() < 0.8:
            self.say("Post")

    def give(self):
        """Posts or discards."""
        self.say(self.chance.choice(("Post", "Discard")))

    def destroy(self):
        """Destroys a stream."""
        self.say("StreamDestroy", self.own_stream())

    def ask_size(self):
        """Asks for the sides of a stream."""
        self.say("size", self.own_stream())

    def wait_for(self):
        """Waits for the next tick."""
        self.say("wait")

    def foreign(self):
        """Names any handle, which mostly is another client's."""
        self.say(self.chance.choice(("Acquire", "StreamDestroy", "size")), self.chance.randint(0, self.machine.made + 1))

    def paint_any(self):
        """Paints, where it holds a canvas or not."""
        name = self.chance.choice(OF_PAINTS)
        self.say(name, *(self.stray_value(kind) for _, kind in NAMED[name].arguments))


def written(chance, deeds):
    """Returns an input of so many deeds, with its answers and its frames."""
    writer = LiveWriter(chance)
    writer.begin()
    for _ in range(deeds):
        writer.turn()
    writer.tick()
    return writer


def answers_in(data):
    """Returns the frames of an output with their lengths, the last of which may be cut."""
    found, at = [], 0
    while at < len(data):
        end = at + LENGTH + int.from_bytes(data[at : at + LENGTH], "big")
        found.append(data[at:end])
        at = end
    return found
