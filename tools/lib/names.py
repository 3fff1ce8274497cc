"""The machine of lib/model.py with frames that run while other calls come, and a plain recount of what names each stream, by the list of
docs/profile.md. Streams have numbers, which count from 1 all that were ever made, the screens of the ports first."""

from collections import Counter
from typing import NamedTuple

from lib.model import Machine, Thing, add, need


A_FRAME_RUNS = "a frame runs"


class Frame(NamedTuple):
    """The running frame: its number, its context or None, its port or 0, and the streams whose images are in it."""

    number: int
    context: Thing
    port: int
    contents: list


class Counted(Machine):
    """A machine that can tell the number of names of each stream after each call."""

    def __init__(self, ports, pipes):
        super().__init__(ports, pipes)
        self.streams_made = 0
        self.begun = 0
        self.frame = None
        # What the frame that began last shows, and the image of the next post or End, which a caller that paints puts here.
        self.shown = None
        self.image = "an image"
        for stream in self.streams:
            self.number(stream)
        self.settle()

    def number(self, stream):
        """Gives a stream the next number."""
        self.streams_made += 1
        stream.number = self.streams_made

    def named_streams(self):
        """The stream of every name, one entry for each name."""
        found = [port.screen for port in self.ports]
        for thing in self.live.values():
            if thing.kind == "stream":
                found.append(thing)
            elif thing.kind in ("source", "mask", "wsource"):
                found.append(thing.stream)
            elif thing.kind == "context":
                found.append(thing.target)
                for layer in thing.committed.layers:
                    found += [layer.stream, layer.mask]
        for pipe in self.pipes:
            found += [pipe.current, pipe.pending and pipe.pending[0]]
        found += [stream for stream in self.streams if stream.out]
        if self.frame:
            found += self.frame.contents
            if self.frame.context:
                found.append(self.frame.context.target)
        return [stream for stream in found if stream is not None]

    def settle(self):
        """Counts the names of each stream, and drops the streams that have none."""
        self.counts = Counter(stream.number for stream in self.named_streams())
        self.streams = [stream for stream in self.streams if self.counts[stream.number]]

    def register_of(self, verb, words):
        """What keeps a refusal of a call. The clock's Begins and an End have nothing."""
        return None if verb in ("begin_next", "begin_port", "end") else super().register_of(verb, words)

    # Streams.

    def keep(self, stream, is_denied):
        handle = super().keep(stream, is_denied)
        self.number(stream)
        return handle

    def canvas(self, words):
        """The stream of a canvas, which has a number, a format and sides, where that is its write buffer and out at a client."""
        number, form, width, height = words
        stream = next((each for each in self.streams if each.number == number), None)
        is_own = stream is not None and stream.out == "client" and (stream.form, stream.w, stream.h) == (form, width, height)
        need(is_own, "BadHandle", "no such write buffer is out")
        stream.out = None
        return stream

    def post(self, words, _):
        add(self.canvas(words), self.image)

    def discard(self, words, _):
        self.canvas(words)

    # Frames, which run until they are ended.

    def run(self, context, port, begun):
        """A frame of a context or of a port runs from now on."""
        scene, images = begun
        shown = {stream.number: stream for layer in scene.layers for stream in (layer.stream, layer.mask) if stream is not None}
        self.begun += 1
        self.shown = begun
        self.frame = Frame(self.begun, context, port, [stream for stream in shown.values() if id(stream) in images])

    def begin_next(self, words, _):
        need(self.frame is None, "Busy", A_FRAME_RUNS)
        context = self.next_context(words[0])
        if context is None:
            return 0
        self.run(context, 0, self.begin(context, context.handle))
        return context.handle

    def begin_context(self, words, _):
        context = self.context_for(words)
        need(self.frame is None, "Busy", A_FRAME_RUNS)
        self.run(context, 0, self.begin(context, 0))
        return context.handle

    def begin_port(self, words, _):
        self.numbered(self.ports, words[0])
        need(self.frame is None, "Busy", A_FRAME_RUNS)
        begun = super().begin_port(words[0])
        if begun is None:
            return 0
        self.run(None, words[0], begun)
        return words[0]

    def end(self, words, _):
        """Ends the running frame, where the Job has its number and its kind: a context's handle and its target's number, or a port."""
        need(self.frame is not None and tuple(words) == job_of(self.frame), "BadHandle", "no such frame runs")
        context, self.frame = self.frame.context, None
        if context:
            super().end(context, self.image)


def job_of(frame):
    """What the Job of a frame says of it: its number, and the context and its target or the port."""
    return (frame.number, *((frame.context.handle, frame.context.target.number) if frame.context else (frame.port,)))
