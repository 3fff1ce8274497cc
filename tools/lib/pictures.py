"""What frames show, pixel by pixel, and what paints leave, by docs/profile.md and apart from the program."""

from lib.model import ALPHA, MASK, PIXEL_BYTES, SOURCE


def mul(a, b):
    """The product of two parts of 255, rounded to the nearest."""
    return (a * b + 127) // 255


def samples(count, of):
    """Which of so many source pixels each of these pixels takes."""
    return [(2 * place + 1) * of // (2 * count) for place in range(count)]


def turned_back(turn, u, v, w, h):
    """The place in a part of w by h that stands at (u, v) once the part is turned clockwise."""
    return {0: (u, v), 90: (v, h - 1 - u), 180: (w - 1 - u, h - 1 - v), 270: (w - 1 - v, u)}[turn]


def lifted(pixel, layer, form, mask):
    """A layer's pixel as a colour that is multiplied by its alpha, and that alpha."""
    *color, alpha = pixel
    if not layer.transparency & SOURCE or form == "rgbx":
        alpha = 255
    elif form == "rgba":
        color = [mul(channel, alpha) for channel in color]
    for part in ([layer.alpha] if layer.transparency & ALPHA else []) + ([mask] if layer.transparency & MASK else []):
        color, alpha = [mul(channel, part) for channel in color], mul(alpha, part)
    return (*color, alpha)


def over(top, below):
    """A colour over another one."""
    rest = 255 - top[3]
    return bytes(min(255, channel + mul(under, rest)) for channel, under in zip(top, below))


def copy_layer(rows, layer, image):
    """Lays a layer over rows that hides them, and is as large as its part of the source: the same as pixel by pixel, and faster."""
    (x0, y0, w, h), (sx, sy, _, _) = layer.dest, layer.srcrect
    for j in range(max(0, -y0), min(h, len(rows) - y0)):
        row = rows[y0 + j]
        first, last = max(0, -x0), min(w, len(row) // 4 - x0)
        if first < last:
            at = 4 * (layer.stream.w * (sy + j) + sx)
            part = bytearray(image[at + 4 * first : at + 4 * last])
            part[3::4] = b"\xff" * (last - first)
            row[4 * (x0 + first) : 4 * (x0 + last)] = part


def draw_layer(rows, layer, images):
    """Lays a layer over rows of pixels, which are byte arrays of a colour every four bytes."""
    image = images.get(id(layer.stream))
    mask = images.get(id(layer.mask)) if layer.transparency & MASK else None
    if image is None or layer.transparency & MASK and mask is None:
        return
    (x0, y0, w, h), (sx, sy, sw, sh) = layer.dest, layer.srcrect
    if (w, h, layer.transparency, layer.rotation, layer.flip) == (sw, sh, 0, 0, 0):
        copy_layer(rows, layer, image)
        return
    across, down = (sw, sh) if layer.rotation in (0, 180) else (sh, sw)
    columns, lines = samples(w, across), samples(h, down)
    known = {}
    for j in range(max(0, -y0), min(h, len(rows) - y0)):
        row = rows[y0 + j]
        for i in range(max(0, -x0), min(w, len(row) // 4 - x0)):
            x, y = turned_back(layer.rotation, columns[i], lines[j], sw, sh)
            y = sh - 1 - y if layer.flip else y
            at = 4 * (layer.stream.w * (sy + y) + sx + x)
            part = mask[w * j + i] if mask is not None else 0
            here = 4 * (x0 + i)
            key = (image[at : at + 4], part, bytes(row[here : here + 4]))
            if key not in known:
                known[key] = over(lifted(key[0], layer, layer.stream.form, part), key[2])
            row[here : here + 4] = known[key]


def picture(scene, images):
    """The picture of a scene with its images: all its pixels, from the top left."""
    w, h = (scene.w, scene.h) if scene.turn in (0, 180) else (scene.h, scene.w)
    rows = [bytearray(bytes(scene.background) * w) for _ in range(h)]
    for layer in scene.layers:
        draw_layer(rows, layer, images)
    if scene.turn == 0:
        return b"".join(map(bytes, rows))
    pixels = bytearray()
    for v in range(scene.h):
        for u in range(scene.w):
            x, y = turned_back(scene.turn, u, v, w, h)
            pixels += rows[y][4 * x : 4 * x + 4]
    return bytes(pixels)


class Canvas:
    """An image that is painted, and is all zero at first."""

    def __init__(self, stream):
        self.stream = stream
        self.size = PIXEL_BYTES[stream.form]
        self.pixels = bytearray(self.size * stream.w * stream.h)

    def put(self, x, y, color):
        """Gives a pixel a colour, where it is inside."""
        if 0 <= x < self.stream.w and 0 <= y < self.stream.h:
            at = self.size * (self.stream.w * y + x)
            self.pixels[at : at + self.size] = bytes(color[4 - self.size :]) if self.size == 1 else bytes(color)

    def paint(self, words):
        """Paints by the words of a paint."""
        what, width, height = words[0], self.stream.w, self.stream.h
        if what == "row":
            data = bytes.fromhex(words[2])
            for x in range(min(width, len(data) // 4)):
                self.put(x, int(words[1]), data[4 * x : 4 * x + 4])
            return
        numbers = [int(word) for word in words[1:]]
        if what == "fill":
            self.pixels[:] = (bytes(numbers) if self.size == 4 else bytes(numbers[3:])) * (width * height)
        elif what == "box":
            left, top, w, h = numbers[:4]
            for y in range(max(0, top), min(height, top + h)):
                for x in range(max(0, left), min(width, left + w)):
                    self.put(x, y, numbers[4:])
        else:
            for y in range(height):
                for x in range(width):
                    self.put(x, y, checker(numbers, x, y) if what == "checker" else ramp(numbers, x, width))


def checker(numbers, x, y):
    """The colour of a place in squares."""
    side, first, second = numbers[0], numbers[1:5], numbers[5:]
    return second if (x // side + y // side) % 2 else first


def ramp(numbers, x, width):
    """The colour of a column between two colours."""
    last = width - 1
    return [(one * (last - x) + two * x) // last if last else one for one, two in zip(numbers[:4], numbers[4:])]
