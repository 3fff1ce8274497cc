"""Makes films for the tests of the tools, from the table of docs/formats.md and apart from the reader."""

import struct


def frame_bytes(form, port, tick, begin, width, height, pixels):
    """A frame of a film."""
    where = struct.pack(">BI", port, tick) + (struct.pack(">I", begin) if form == 2 else b"")
    return b"F" + where + struct.pack(">HH", width, height) + pixels


def film_bytes(form, frames, entries):
    """A film of frames (port, tick, begin, width, height, pixels) and entries (client, code, value)."""
    magic = {1: b"WFF1", 2: b"WFF2"}[form]
    journal = b"J" + struct.pack(">I", len(entries)) + b"".join(struct.pack(">BBI", *entry) for entry in entries)
    return magic + b"".join(frame_bytes(form, *frame) for frame in frames) + journal + b"E"


def pixels_of(width, height, seed):
    """Opaque pixels, of which no two rows and no two columns are alike, and which differ from seed to seed."""
    pixels = bytearray()
    for y in range(height):
        for x in range(width):
            pixels += bytes(((seed * 40 + x * 7 + y * 3) % 256, (x * 11 + y * 5 + seed) % 256, (y * 13 + x) % 256, 255))
    return bytes(pixels)


# A script of two ports, and of two clients beside each other. Client 1 also asks where it has no turn: it acquires while it
# holds a canvas, and posts without one.
SCRIPT = """WFS1
port 6x4
port 5x3
# The setup <of client 0> & what is "shown".
0 d = device
0 c = screen d 1
0 s = stream 6 4 rgbx 3
0 x = source d c s
0 e = element d c
0 set d e source x
0 insert d e none
0 commit d c
0 activate d c
1 frame s fill 1 2 3 255
0 tick
1 acquire s
1 acquire s
1 paint fill 4 5 6 255
1 post
1 post
0 set d e srcrect 0 0 6 4
0 commit d c
0 set d e dest 0 0 6 4
0 commit d c
0 tick
1 frame s fill 7 8 9 255
0 tick
end
"""
# Its journal in an order of threads: the post of line 19 comes between the begin of the context's frame and that of port 1's,
# and client 1's last line is played before the second tick ends. Each entry has the line that makes it.
ORDER = (
    (5, 0, 0, 1), (6, 0, 0, 2), (7, 0, 0, 3), (8, 0, 0, 4), (9, 0, 0, 5), (10, 0, 0, 0), (11, 0, 0, 0),
    (12, 0, 11, 18), (13, 0, 0, 0),
    (14, 1, 0, 0),
    (15, 0, 0, 2),
    (14, 1, 0, 0),
    (15, 0, 0, 0), (15, 0, 0, 0), (15, 0, 0, 1), (15, 0, 0, 0), (15, 0, 0, 2), (15, 0, 0, 0),
    (16, 1, 0, 0),
    (21, 0, 0, 0),
    (22, 0, 11, 19), (23, 0, 0, 0), (24, 0, 0, 0), (25, 0, 0, 2),
    (19, 1, 0, 0),
    (25, 0, 0, 0), (25, 0, 0, 0), (25, 0, 0, 1), (25, 0, 0, 0),
    (26, 1, 8, 0),
    (25, 0, 0, 2), (25, 0, 0, 0),
    (27, 0, 0, 2), (27, 0, 0, 0), (27, 0, 0, 0), (27, 0, 0, 1), (27, 0, 0, 0), (27, 0, 0, 2), (27, 0, 0, 0),
)
ENTRIES = [entry[1:] for entry in ORDER]
# Port, tick, the entry of its begin, and that of the newest begin of its context's frame.
BEGINS = ((1, 1, 14, 10), (2, 1, 16, None), (1, 2, 27, 23), (2, 2, 30, None), (1, 3, 35, 32), (2, 3, 37, None))
SIDES = {1: (6, 4), 2: (5, 3)}
FRAMES = [(port, tick, begin, *SIDES[port], pixels_of(*SIDES[port], tick)) for port, tick, begin, _ in BEGINS]
