"""Writes pictures as PNG and as animated PNG, and reads small ones."""

import itertools
import struct
import zlib

MAGIC = b"\x89PNG\r\n\x1a\n"
# The kinds of pictures: how many channels a pixel has in the file, and how many bits a channel may have.
GREY, COLOUR, INDEXED, GREY_ALPHA, COLOUR_ALPHA = 0, 2, 3, 4, 6
CHANNELS = {GREY: 1, COLOUR: 3, INDEXED: 1, GREY_ALPHA: 2, COLOUR_ALPHA: 4}
BITS = {GREY: (1, 2, 4, 8, 16), COLOUR: (8, 16), INDEXED: (1, 2, 4, 8), GREY_ALPHA: (8, 16), COLOUR_ALPHA: (8, 16)}


class NoPng(Exception):
    """A file is no PNG picture, or one that is not read, and why."""


def chunk(kind, data):
    """A chunk of a PNG file: its length, its kind, its data and their check sum."""
    return struct.pack(">I", len(data)) + kind + data + struct.pack(">I", zlib.crc32(kind + data))


def head(width, height):
    """The chunk that says how large a picture is."""
    # Eight bits a channel, red, green, blue and alpha (kind 6), the one compression, the one filtering, no interlacing.
    return chunk(b"IHDR", struct.pack(">IIBBBBB", width, height, 8, 6, 0, 0, 0))


def packed(width, height, pixels):
    """The rows of a picture, which are red, green, blue and alpha from the top, compressed as PNG wants them."""
    # Each row begins with its filter: 0 keeps the bytes as they are.
    rows = b"".join(b"\0" + pixels[4 * width * y : 4 * width * (y + 1)] for y in range(height))
    return zlib.compress(rows, 9)


def picture(width, height, pixels):
    """A PNG file of these pixels."""
    return MAGIC + head(width, height) + chunk(b"IDAT", packed(width, height, pixels)) + chunk(b"IEND", b"")


class Animation:
    """An animated PNG that is written picture by picture to a file, which must let its writer go back: how many pictures
    there are stands at the file's start and is known last."""

    def __init__(self, sink, width, height, rate):
        self.sink = sink
        self.width = width
        self.height = height
        self.rate = rate
        self.pictures = 0
        self.parts = 0
        sink.write(MAGIC + head(width, height))
        self.count_at = sink.tell()
        sink.write(self.count())

    def count(self):
        """The chunk that says how many pictures there are, and that they are shown again and again."""
        return chunk(b"acTL", struct.pack(">II", self.pictures, 0))

    def part(self):
        """The next number of the parts of the animation, which are counted from 0."""
        self.parts += 1
        return struct.pack(">I", self.parts - 1)

    def add(self, pixels):
        """Writes the next picture, which has the animation's sides. It is shown for a second divided by the rate."""
        # At the left upper corner; it stays until the next, and replaces the one before.
        shown = struct.pack(">IIIIHHBB", self.width, self.height, 0, 0, 1, self.rate, 0, 0)
        self.sink.write(chunk(b"fcTL", self.part() + shown))
        data = packed(self.width, self.height, pixels)
        # The first picture is also the one of readers that know no animations.
        self.sink.write(chunk(b"fdAT", self.part() + data) if self.pictures else chunk(b"IDAT", data))
        self.pictures += 1

    def finish(self):
        """Writes the end, and then how many pictures there are."""
        self.sink.write(chunk(b"IEND", b""))
        self.sink.seek(self.count_at)
        self.sink.write(self.count())


def chunks_of(data):
    """The chunks of a file as kind and data."""
    if data[: len(MAGIC)] != MAGIC:
        raise NoPng("it does not begin as a PNG file does")
    at, kind = len(MAGIC), b""
    while kind != b"IEND":
        if len(data) < at + 12:
            raise NoPng("it ends too early")
        length, kind = struct.unpack_from(">I4s", data, at)
        body, tail = data[at + 8 : at + 8 + length], data[at + 8 + length : at + 12 + length]
        if tail != struct.pack(">I", zlib.crc32(kind + body)):
            raise NoPng(f"a part of it is cut off or damaged: {kind.decode('latin-1')}")
        yield kind, body
        at += 12 + length


# Each filter, undone in the bytes of a row, of which `step` bytes lie from a pixel to the next.


def as_it_is(_row, _above, _step):
    """Keeps a row as it is."""


def by_left(row, _above, step):
    """Adds to each byte of a row the one at its left."""
    for channel in range(step):
        row[channel::step] = bytes(itertools.accumulate(row[channel::step], lambda left, own: (left + own) & 255))


def by_above(row, above, _step):
    """Adds to each byte of a row the one above it."""
    row[:] = bytes((own + high) & 255 for own, high in zip(row, above))


def by_both(row, above, step):
    """Adds to each byte of a row the mean of both."""
    for x, high in enumerate(above):
        row[x] = (row[x] + ((row[x - step] if x >= step else 0) + high >> 1)) & 255


def by_nearest(row, above, step):
    """Adds to each byte of a row the neighbour that is nearest to left + above - corner."""
    for x, high in enumerate(above):
        left, corner = (row[x - step], above[x - step]) if x >= step else (0, 0)
        to_left, to_above, to_corner = abs(high - corner), abs(left - corner), abs(left + high - 2 * corner)
        near = left if to_left <= to_above and to_left <= to_corner else high if to_above <= to_corner else corner
        row[x] = (row[x] + near) & 255


FILTERS = (as_it_is, by_left, by_above, by_both, by_nearest)


def unfiltered(data, height, stride, step):
    """The rows of a picture, of `stride` bytes each with `step` bytes from a pixel to the next, out of what was filtered."""
    if len(data) != height * (stride + 1):
        raise NoPng("its pixels are cut off or damaged")
    above = bytes(stride)
    for start in range(0, len(data), stride + 1):
        kind, row = data[start], bytearray(data[start + 1 : start + 1 + stride])
        if kind >= len(FILTERS):
            raise NoPng("its pixels are damaged")
        FILTERS[kind](row, above, step)
        yield row
        above = row


def samples(row, bits, count):
    """The samples of a row of so many bits each, and of those of 16 bits the upper 8."""
    if bits >= 8:
        return row[: count * bits // 8 : bits // 8]
    each, most = 8 // bits, (1 << bits) - 1
    return [row[x // each] >> (8 - bits - bits * (x % each)) & most for x in range(count)]


def key_of(kind, bits, transparency):
    """The samples of the one colour that a picture without alpha says is not seen, or nothing."""
    if kind not in (GREY, COLOUR) or len(transparency) < 2 * CHANNELS[kind]:
        return None
    said = struct.unpack_from(f">{CHANNELS[kind]}H", transparency)
    return [sample >> 8 if bits == 16 else sample for sample in said]


def pixel_of(kind, bits, sample, palette, transparency, key):
    """A pixel of a kind, as red, green, blue and alpha, by its samples."""
    if kind == INDEXED:
        at = sample[0]
        if len(palette) < 3 * at + 3:
            raise NoPng("a pixel has a colour that is not in its palette")
        return palette[3 * at : 3 * at + 3] + (transparency[at : at + 1] or b"\xff")
    whole = [each * 255 // ((1 << min(bits, 8)) - 1) for each in sample]
    alpha = 0 if list(sample) == key else 255
    if kind in (GREY_ALPHA, COLOUR_ALPHA):
        alpha = whole.pop()
    return bytes((whole * 3)[:3] + [alpha])


def sides(data):
    """Returns the sides that a PNG file says it has, or none where it does not begin with them."""
    first = len(MAGIC) + 4
    return struct.unpack_from(">II", data, first + 4) if data[first : first + 4] == b"IHDR" and len(data) >= first + 12 else None


def wide(width, kind, row):
    """Returns the pixels of a row of eight bits a channel that needs no palette, opaque where it has no alpha."""
    if kind == COLOUR_ALPHA:
        return row
    pixels = bytearray(b"\xff" * (4 * width))
    for channel in range(3):
        pixels[channel::4] = row[channel::3]
    return pixels


def read(data, most):
    """The sides of a PNG file and its pixels, which are red, green, blue and alpha in rows from the top. Sides are at most so
    long. Of 16 bits a channel the upper 8 are taken; colours are taken as they stand, whatever their profile."""
    parts = {}
    for part, body in chunks_of(data):
        parts[part] = parts.get(part, b"") + body
    if len(parts.get(b"IHDR", b"")) != 13 or b"IDAT" not in parts:
        raise NoPng("it has no picture")
    width, height, bits, kind, packing, filtering, interlaced = struct.unpack(">IIBBBBB", parts[b"IHDR"])
    if bits not in BITS.get(kind, ()) or packing or filtering or interlaced > 1:
        raise NoPng("it is of a kind that there is not")
    if interlaced:
        raise NoPng("it is interlaced; save it without that")
    if not (1 <= width <= most and 1 <= height <= most):
        raise NoPng(f"it has {width} by {height} pixels, and a side is from 1 to {most}")
    count = width * CHANNELS[kind]
    stride = (count * bits + 7) // 8
    unpacker = zlib.decompressobj()
    try:
        rows = unpacker.decompress(parts[b"IDAT"], height * (stride + 1) + 1)
    except zlib.error:
        raise NoPng("its pixels are damaged") from None
    palette, transparency = parts.get(b"PLTE", b""), parts.get(b"tRNS", b"")
    key = key_of(kind, bits, transparency)
    pixels = bytearray()
    is_plain = bits == 8 and kind in (COLOUR, COLOUR_ALPHA) and key is None
    for row in unfiltered(rows, height, stride, max(1, CHANNELS[kind] * bits // 8)):
        if is_plain:
            pixels += wide(width, kind, row)
            continue
        told = samples(row, bits, count)
        for x in range(0, count, CHANNELS[kind]):
            pixels += pixel_of(kind, bits, told[x : x + CHANNELS[kind]], palette, transparency, key)
    return width, height, bytes(pixels)
