"""The files of cases of cases_wire, as lib/session.py answers them: sessions whose source gives so many bytes at once, and of whose source
or sink one call fails."""

from lib.session import QUOTA, serve
from lib.wire import Stop

STEP = 4096
SETTINGS = ("quota", "step", "take", "put")


class ReadFault(Stop):
    """A call of the source fails."""

    def __init__(self):
        super().__init__("ReadFault")


class WriteFault(Stop):
    """A call of the sink fails, which took so many bytes before."""

    def __init__(self, written):
        super().__init__(f"WriteFault {written}")


class Source:
    """Bytes that come so many at a time. One call fails, or none where it has the number 0; the last one learns that there are no more."""

    def __init__(self, data, step=STEP, fails=0):
        self.data = data
        self.step = step
        self.fails = fails
        self.calls = 0

    def take(self, count):
        """Returns the bytes of a call."""
        self.calls += 1
        if self.calls == self.fails:
            raise ReadFault
        taken, self.data = self.data[: min(count, self.step)], self.data[min(count, self.step) :]
        return taken

    def read(self, count):
        """Returns so many bytes, or those up to the end."""
        found = b""
        while len(found) < count:
            taken = self.take(count - len(found))
            if not taken:
                break
            found += taken
        return found


class Sink:
    """What was put. One call fails, or none where it has the number 0."""

    def __init__(self, fails=0):
        self.data = b""
        self.fails = fails
        self.calls = 0

    def write(self, piece):
        """Takes a piece of an answer."""
        self.calls += 1
        if self.calls == self.fails:
            raise WriteFault(len(self.data))
        self.data += piece


class Player:
    """What the lines of a file say of the sessions after them, and the answers."""

    def __init__(self):
        self.quota, self.step, self.take, self.put = QUOTA, STEP, 0, 0

    def answer(self, call):
        """Returns the answer to a line."""
        verb, *words = call.split()
        if verb == "session":
            return self.played(bytes.fromhex("".join(words)))
        least = 1 if verb in ("quota", "step") else 0
        setattr(self, verb, max(least, int(words[0])))
        return "done"

    def played(self, data):
        """Returns what is told of a session: what was put, and how it ended."""
        sink = Sink(self.put)
        end = serve(Source(data, self.step, self.take), sink, self.quota)
        return f"{sink.data.hex()} {end}".strip()


def cases_of(path):
    """Yields the cases of a file: each line, the answer that is wanted, and the model's."""
    player = Player()
    for line in path.read_text(encoding="utf-8").splitlines():
        call, _, want = line.strip().rpartition(" =")
        if call and not line.startswith("#"):
            yield line.strip(), want.strip(), player.answer(call)
