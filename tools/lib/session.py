"""Sessions on the machine of lib/names.py, by docs/formats.md and apart from the program: what each message is answered, and how a session
ends. Pictures and paints are those of lib/pictures.py."""

import io
import struct

from lib.names import Counted, job_of
from lib.pictures import Canvas
from lib.player import painted
from lib.wire import NAMED, PAINTS, Reader, Stop

# How many calls a client has where nothing is said, and how many have to be left before a message.
QUOTA = 1_048_576
LEAST_LEFT = 3
# The code of the answer to a message that made no call, for want of a canvas or since one is held.
NO_CALL = 255
# The words of paints, where they are not their names in small letters.
PAINT_WORDS = {"Rectangle": "box"}


class OutOfCalls(Stop):
    """Fewer calls are left than a message at this place may need."""

    def __init__(self, at):
        super().__init__(f"Quota {at}")


def answer_of(code, value):
    """Returns the bytes of an answer without a picture."""
    return struct.pack(">BI", code, value)


class Session:
    """A machine with what one client holds, and how many calls are left to it."""

    def __init__(self, header, quota=QUOTA):
        self.machine = Counted([[size] for size in header.ports], header.pipes)
        self.quota = self.left = quota
        self.canvas = None

    @property
    def events(self):
        """Returns how many calls were made."""
        return self.quota - self.left

    def call(self, verb, words):
        """Makes a call. Returns its code and its value."""
        self.left -= 1
        return self.machine.call(verb, words)

    def answer(self, message):
        """Carries a message out. Returns the pieces of its answer: with a picture there are two, and the pixels are the second."""
        if self.left < LEAST_LEFT:
            raise OutOfCalls(message.at)
        if message.name in PAINTS:
            return [self.paint(message)]
        verb = NAMED[message.name].word.strip("()")
        if verb in ("post", "discard"):
            return [self.give_back(verb)]
        if verb == "acquire":
            return [self.acquire(message.words)]
        code, value = self.call(verb, message.words)
        if verb in ("begin_context", "begin_port") and self.machine.frame is not None:
            return self.frame(code, value, verb == "begin_port")
        return [answer_of(code, value)]

    def paint(self, message):
        """Paints into the canvas that is held, which is no call."""
        if self.canvas is None:
            return answer_of(NO_CALL, 0)
        self.canvas.paint([PAINT_WORDS.get(message.name, message.name.lower()), *message.numbers])
        return answer_of(0, 0)

    def acquire(self, words):
        """Takes a canvas, unless one is held."""
        if self.canvas is not None:
            return answer_of(NO_CALL, 0)
        code, value = self.call("acquire", words)
        if code == 0:
            self.canvas = Canvas(self.machine.live[words[0]])
        return answer_of(code, value)

    def give_back(self, verb):
        """Posts or discards the canvas that is held, which comes back where that is refused."""
        if self.canvas is None:
            return answer_of(NO_CALL, 0)
        stream = self.canvas.stream
        self.machine.image = bytes(self.canvas.pixels)
        code, value = self.call(verb, [stream.number, stream.form, stream.w, stream.h])
        if code == 0:
            self.canvas = None
        return answer_of(code, value)

    def frame(self, code, value, is_shown):
        """Paints and ends the frame that began. Returns its answer, with the picture where it `is_shown`."""
        scene, images = self.machine.shown
        self.machine.image = painted(scene, images)
        self.call("end", job_of(self.machine.frame))
        if not is_shown:
            return [answer_of(code, value)]
        return [answer_of(code, value) + struct.pack(">HH", scene.w, scene.h), self.machine.image]

    def close(self):
        """Discards a canvas that is still held."""
        if self.canvas is not None:
            self.give_back("discard")


def serve(source, sink, quota=QUOTA):
    """Serves the session of a source, of `quota` calls, and writes each piece of an answer to a sink at once. Returns how the session
    ended, as the cases of cases_wire tell it."""
    reader = Reader(source)
    try:
        session = Session(reader.header(), quota)
    except Stop as stop:
        return str(stop)
    end = None
    try:
        for message in reader.messages():
            for piece in session.answer(message):
                sink.write(piece)
    except Stop as stop:
        end = str(stop)
    session.close()
    return end or f"Ok {session.events}"


def answers(data, quota=QUOTA):
    """Returns the answers to the bytes of a session, and how it ends."""
    sink = io.BytesIO()
    end = serve(io.BytesIO(data), sink, quota)
    return sink.getvalue(), end
