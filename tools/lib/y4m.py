"""Writes pictures as a YUV4MPEG2 stream, which ffmpeg and most players read.

Each pixel keeps its own colour (4:4:4), as a byte of brightness and two of hue, by the matrix of BT.601 in the narrow range.
That is near the picture's own colours, but not byte for byte: PNG is.
"""

# Of each plane the weights of red, green and blue in parts of 256, and where it has its zero.
BRIGHTNESS = (66, 129, 25), 16
BLUENESS = (-38, -74, 112), 128
REDNESS = (112, -94, -18), 128
HALF = 128


def head(width, height, rate):
    """The line that begins the stream: sides, pictures a second, whole pictures, square pixels, a colour for each."""
    return f"YUV4MPEG2 W{width} H{height} F{rate}:1 Ip A1:1 C444 XCOLORRANGE=LIMITED\n".encode()


def spread(values):
    """Bytes as one number, in which each has 16 bits. A sum of such numbers is taken of all pixels at once."""
    wide = bytearray(2 * len(values))
    wide[::2] = values
    return int.from_bytes(wide, "little")


def plane(channels, count, weights, zero):
    """A plane: of each pixel the weighted sum of its channels, rounded to the nearest."""
    # Every sum is from 0 to 65,535, so none touches that of the next pixel; its upper byte is what is wanted.
    total = sum(weight * channel for weight, channel in zip(weights, channels))
    total += (256 * zero + HALF) * spread(b"\1" * count)
    return total.to_bytes(2 * count, "little")[1::2]


def picture(pixels):
    """A picture of the stream. Alpha has no part in it."""
    channels = [spread(pixels[at::4]) for at in range(3)]
    planes = (plane(channels, len(pixels) // 4, *rule) for rule in (BRIGHTNESS, BLUENESS, REDNESS))
    return b"FRAME\n" + b"".join(planes)
