"""Makes the scripts that the parts of tools/bench play."""


def script_of(lines):
    """Returns the bytes of a script of these `lines`, with its first line and its end."""
    return "\n".join(["WFS1", *lines, "end", ""]).encode("ascii")


def ticks_script(width, height, ticks):
    """Returns a script of one port of a `width` and a `height`, and of `ticks`."""
    return script_of([f"port {width}x{height}", *["0 tick"] * ticks])


def names_script(lines):
    """Returns a script of as many `lines` that each bind a name of their own."""
    return script_of(["port 1x1", *(f"0 name{number} = stream 1 1 rgba 2" for number in range(lines))])


def rounds_script(rounds):
    """Returns a script that makes in each of its `rounds` a stream, shows it in one frame of 64 by 48 pixels, and destroys it again."""
    lines = ["port 64x48", "0 d = device", "0 c = screen d 1", "0 activate d c"]
    for i in range(rounds):
        lines += [
            f"0 s{i} = stream 8 8 rgbx 2",
            f"0 x{i} = source d c s{i}",
            f"0 e{i} = element d c",
            f"0 set d e{i} source x{i}",
            f"0 set d e{i} srcrect 0 0 8 8",
            f"0 set d e{i} dest {5 * i % 56} {3 * i % 40} 8 8",
            f"0 insert d e{i} none",
            f"0 frame s{i} fill 200 100 50 255",
            "0 commit d c",
            "0 tick",
            f"0 del_element d e{i}",
            f"0 del_source d x{i}",
            f"0 del_stream s{i}",
        ]
    return script_of(lines)


def events_script(streams, sources, event, count):
    """Returns a script that keeps as many `streams` and `sources`, beside one element, and then has an `event`, `count` times."""
    lines = ["port 1x1", "0 d = device", "0 c = screen d 1", "0 e = element d c"]
    lines += [f"0 s{i} = stream 1 1 rgbx 2" for i in range(streams)]
    lines += [f"0 x{i} = source d c s{i % streams}" for i in range(sources)]
    return script_of(lines + [f"0 {event}"] * count)


def pipelines_script(pipelines, lines, ticks):
    """Returns a script of a port of two modes with as many `pipelines` over its screen, then `lines` with a name each, and then `ticks`."""
    text = ["port 64x48 32x24", "pipes 8"]
    for i in range(1, pipelines + 1):
        text += [
            f"0 s{i} = stream 32 24 rgba 2",
            f"0 frame s{i} fill 200 100 50 128",
            f"0 x{i} = wsource {i} s{i}",
            f"0 lset {i} srcrect 0 0 32 24",
            f"0 lset {i} dest {4 * i} {4 * i} 32 24",
            f"0 lset {i} transparency source",
            f"0 lport {i} 1",
            f"0 lsource {i} x{i} now",
        ]
    # A stream without a side is refused, so the name stands for none.
    text += ["0 commit_device"] + [f"0 name{number} = stream 0 1 rgba 2" for number in range(lines)]
    return script_of(text + ["0 tick"] * ticks)


def window(number, place, size, is_blended):
    """Returns the lines that make the window of a `number` at a `place`, of a `size`, and draw it; it `is_blended` or copied."""
    (x, y), (width, height) = place, size
    return [
        f"0 s{number} = stream {width} {height} rgba 2",
        f"0 x{number} = source d c s{number}",
        f"0 e{number} = element d c",
        f"0 set d e{number} source x{number}",
        f"0 set d e{number} srcrect 0 0 {width} {height}",
        f"0 set d e{number} dest {x} {y} {width} {height}",
        f"0 set d e{number} transparency {'source' if is_blended else 'none'}",
        f"0 insert d e{number} none",
        f"0 frame s{number} fill 200 100 50 128",
    ]


def desk_script(size, windows, before, ticks):
    """Returns a script of a port of a `size`, of `windows`, each with its sides and whether it is blended, and of `ticks`, each of which
    comes after the lines that `before` makes of its number."""
    text = [f"port {size[0]}x{size[1]}", "0 d = device", "0 c = screen d 1", "0 activate d c"]
    for number, (sides, is_blended) in enumerate(windows):
        place = [number * (whole - own) // 16 for whole, own in zip(size, sides)]
        text += window(number, place, sides, is_blended)
    text.append("0 commit d c")
    for number in range(ticks):
        text += [*before(number), "0 tick"]
    return script_of(text)


def moved(element, number):
    """Returns the lines that move an `element` of 16 by 16 pixels before the tick of a `number`."""
    return [f"0 set d e{element} dest {3 * number % 600} {2 * number % 440} 16 16", "0 commit d c"]


def drawn(streams, number):
    """Returns the lines that draw into `streams` anew before the tick of a `number`."""
    return [f"0 frame s{stream} fill {number % 256} 100 50 128" for stream in streams]


def windows_script(width, height, ticks):
    """Returns a script of 16 overlapping windows on a port of a `width` and a `height`, half of them blended, one of which is drawn anew
    before each of the `ticks`."""
    windows = [((width // 2, height // 2), number % 2 == 1) for number in range(16)]
    return desk_script((width, height), windows, lambda number: drawn([number % 16], number), ticks)


def bindings_script(rounds, at_once):
    """Returns a script whose `rounds` each have a request, a commit that binds it, and a release. After each `at_once` of them its port of
    64 by 48 ticks."""
    text = ["port 64x48", "pipes 1", "0 lport 1 1", "0 commit_device"]
    for number in range(rounds):
        text += ["0 lsource 1 none now", "0 commit_pipe 1", f"0 s{number} = stream 1 1 rgba 2", f"0 del_stream s{number}"]
        text += ["0 tick"] * (number % at_once == at_once - 1)
    return script_of(text)
