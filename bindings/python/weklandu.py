"""The machine of libweklandu for Python, by ctypes.

    with Machine([[(320, 240)]]) as machine, Frame() as frame:
        stream = machine.stream_new(1, 64, 48, Format.RGBX8, 3).value
        machine.submit(1, stream, pixels)
        ...
        machine.begin_port(frame, 0, 1)
        picture = frame.read()
        machine.end(frame, 0)

A machine has a method for each message of the table of calls, by its name in small letters, whose first argument is the client. A call that
is refused raises Refused, unless the machine was opened with raises=False. The shared object is found by the variable WEKLANDU_LIB, or as
the system finds libraries. One call at a time: a program of several threads has a lock around a machine, and may paint and read a frame
outside of it.
"""

import ctypes
import ctypes.util
import os
from enum import IntEnum
from typing import NamedTuple

# tools/calls writes what stands from here on


class Code(IntEnum):
    OK = 0
    OUT_OF_MEMORY = 1
    ILLEGAL_ARGUMENT = 2
    UNSUPPORTED = 3
    NOT_SUPPORTED = 4
    BAD_ATTRIBUTE = 5
    IN_USE = 6
    BUSY = 7
    NO_BUFFER = 8
    BAD_DEVICE = 9
    BAD_HANDLE = 10
    INCONSISTENCY = 11
    LIMIT = 12
    NOT_MADE = 255


class Format(IntEnum):
    RGBA8 = 0
    RGBA8_PRE = 1
    RGBX8 = 2
    A8 = 3


class Stat(IntEnum):
    STREAMS = 0
    BYTES = 1


class Transition(IntEnum):
    NOW = 0
    VSYNC = 1


class Element(IntEnum):
    DEST = 0
    SOURCE = 1
    SRC_RECT = 2
    FLIP = 3
    ROTATION = 4
    FILTER = 5
    TRANSPARENCY = 6
    ALPHA = 7
    MASK = 8


class Context(IntEnum):
    ROTATION = 0
    BACKGROUND = 1
    WIDTH = 2
    HEIGHT = 3
    LOWEST = 4


class Port(IntEnum):
    MODE = 0
    BACKGROUND = 1
    POWER = 2
    WIDTH = 3
    HEIGHT = 4
    ATTACHED = 5


class Pipe(IntEnum):
    DEST = 0
    SRC_RECT = 1
    FLIP = 2
    ROTATION = 3
    FILTER = 4
    ALPHA = 5
    TRANSPARENCY = 6
    PORT = 7
    PENDING = 8
    SHOWING = 9

# tools/calls writes what stands up to here

OK, NOT_MADE = Code.OK, Code.NOT_MADE
RGBA, BGRA = 0, 1
# Parts of the transparency of an element, which are added.
ALPHA, SOURCE, MASK = 1, 2, 4
PIXEL = 4


class Told(NamedTuple):
    """What a call answers: a code, and a value, which is the handle of what was made, or a number that was asked for."""

    code: int
    value: int


class Refused(Exception):
    """A call was refused: what it answered."""

    def __init__(self, told):
        super().__init__(f"{Code(told.code).name} {told.value}")
        self.told = told


class _Handle(ctypes.Structure):
    _fields_ = [("at", ctypes.c_void_p), ("live", ctypes.c_uint32)]


class _Told(ctypes.Structure):
    _fields_ = [("code", ctypes.c_uint8), ("value", ctypes.c_uint32)]


class _Mode(ctypes.Structure):
    _fields_ = [("port", ctypes.c_uint32), ("w", ctypes.c_uint32), ("h", ctypes.c_uint32)]


class _Extent(ctypes.Structure):
    _fields_ = [("w", ctypes.c_uint32), ("h", ctypes.c_uint32)]


_handle, _u8, _u32, _i64, _size, _bytes = (
    ctypes.POINTER(_Handle), ctypes.c_uint8, ctypes.c_uint32, ctypes.c_int64, ctypes.c_size_t, ctypes.c_void_p,
)
_FUNCTIONS = {
    "wk_open": (_u8, [_handle, _u32, ctypes.POINTER(_Mode), _size, _u32]),
    "wk_frame_open": (_u8, [_handle]),
    "wk_close": (None, [_handle]),
    "wk_call": (_Told, [_handle, _u8, _u8, ctypes.POINTER(ctypes.c_uint64), _size]),
    "wk_post": (_Told, [_handle, _u8, _u32]),
    "wk_discard": (_Told, [_handle, _u8, _u32]),
    "wk_holds": (_u8, [_handle, _u32]),
    "wk_write": (_u8, [_handle, _u32, _bytes, _size, _size]),
    "wk_submit": (_Told, [_handle, _u8, _u32, _bytes, _size, _size]),
    "wk_begin_next": (_Told, [_handle, _handle, _u8, _u32]),
    "wk_begin_port": (_Told, [_handle, _handle, _u8, _i64]),
    "wk_begin_context": (_Told, [_handle, _handle, _u8, _u32, _u32]),
    "wk_paint": (None, [_handle]),
    "wk_frame_extent": (_Extent, [_handle]),
    "wk_read_frame": (_u8, [_handle, _bytes, _size, _size, _u32]),
    "wk_end": (_Told, [_handle, _handle, _u8]),
}


def _loaded():
    """Returns the library, with the types of its functions."""
    name = os.environ.get("WEKLANDU_LIB") or ctypes.util.find_library("weklandu")
    if not name:
        raise OSError("no libweklandu: install it, or name its shared object in the variable WEKLANDU_LIB")
    library = ctypes.CDLL(name)
    for function, (result, arguments) in _FUNCTIONS.items():
        own = getattr(library, function)
        own.restype, own.argtypes = result, arguments
    return library


_lib = _loaded()


def _four(values):
    """Returns a number, or up to four, as four."""
    values = [values] if isinstance(values, int) else list(values)
    if len(values) > 4:
        raise ValueError("an attribute has at most four numbers")
    return values + [0] * (4 - len(values))


def _view(pixels):
    """Returns the bytes of what has a buffer, and how many there are, without a copy where they can be written."""
    view = memoryview(pixels).cast("B")
    room = (ctypes.c_uint8 * len(view)).from_buffer(view) if not view.readonly else (ctypes.c_uint8 * len(view)).from_buffer_copy(view)
    return room, len(view)


class _Open:
    """What is open behind a handle, until it is closed."""

    def __init__(self):
        self._own = _Handle()

    def __enter__(self):
        return self

    def __exit__(self, *_):
        self.close()

    def close(self):
        """Closes it, and frees its memory."""
        _lib.wk_close(self._own)

    def __del__(self):
        if _lib is not None:
            self.close()


class Frame(_Open):
    """A place for one frame after another."""

    def __init__(self):
        super().__init__()
        if _lib.wk_frame_open(self._own) != OK:
            raise MemoryError

    def paint(self):
        """Paints the picture. Without it, whatever needs the picture first paints it."""
        _lib.wk_paint(self._own)

    @property
    def size(self):
        """Returns the width and the height of the picture, both 0 where no frame stands here."""
        extent = _lib.wk_frame_extent(self._own)
        return extent.w, extent.h

    def read_into(self, out, stride, order=RGBA):
        """Copies the rows of the picture into what has a buffer that can be written, such as a bytearray or an array of numpy. Returns
        whether it did."""
        room, count = _view(out)
        return _lib.wk_read_frame(self._own, room, count, stride, order) == OK

    def read(self, order=RGBA):
        """Returns the bytes of the picture, row by row, or None where no frame stands here."""
        width, height = self.size
        out = bytearray(PIXEL * width * height)
        return bytes(out) if self.read_into(out, PIXEL * width, order) else None


class Machine(_Open):
    """A machine with ports, each a list of modes as pairs of a width and a height, and pipelines."""

    def __init__(self, ports, pipes=0, raises=True):
        super().__init__()
        self.raises = raises
        modes = [_Mode(number, *mode) for number, own in enumerate(ports, 1) for mode in own]
        code = _lib.wk_open(self._own, len(ports), (_Mode * len(modes))(*modes), len(modes), pipes)
        if code != OK:
            raise MemoryError if code == Code.OUT_OF_MEMORY else Refused(Told(code, 0))

    def _told(self, own):
        told = Told(own.code, own.value)
        if self.raises and told.code != OK:
            raise Refused(told)
        return told

    def call(self, client, number, *arguments):
        """Makes the call of a message by its number."""
        bits = (ctypes.c_uint64 * max(1, len(arguments)))(*(int(argument) & (2**64 - 1) for argument in arguments))
        return self._told(_lib.wk_call(self._own, client, number, bits, len(arguments)))

    def post(self, client, stream):
        """Posts the write buffer that is held of a stream."""
        return self._told(_lib.wk_post(self._own, client, stream))

    def discard(self, client, stream):
        """Gives it back unseen."""
        return self._told(_lib.wk_discard(self._own, client, stream))

    def holds(self, stream):
        """Returns whether a write buffer of a stream is held."""
        return _lib.wk_holds(self._own, stream) == 1

    def write(self, stream, pixels, stride):
        """Writes pixels into the write buffer that is held of a stream. Returns whether it did."""
        room, count = _view(pixels)
        return _lib.wk_write(self._own, stream, room, count, stride) == OK

    def submit(self, client, stream, pixels, stride):
        """Takes the write buffer of a stream, writes pixels into it, and posts it."""
        room, count = _view(pixels)
        return self._told(_lib.wk_submit(self._own, client, stream, room, count, stride))

    def begin_next(self, frame, client, after):
        """Begins a frame of the active context with the least handle above `after`, which is the value, or 0."""
        return self._told(_lib.wk_begin_next(self._own, frame._own, client, after))

    def begin_port(self, frame, client, port):
        """Begins a frame of a port."""
        return self._told(_lib.wk_begin_port(self._own, frame._own, client, port))

    def begin_context(self, frame, client, device, context):
        """Begins a frame of a context that is not active."""
        return self._told(_lib.wk_begin_context(self._own, frame._own, client, device, context))

    def end(self, frame, client):
        """Ends a frame."""
        return self._told(_lib.wk_end(self._own, frame._own, client))

    # tools/calls writes what stands from here on

    def stream_new(self, client, width, height, format, buffers):
        """Makes a stream of 2 to 4 buffers, each an image of this size and format with sides from 1 to `MOST_SIDE`."""
        return self.call(client, 1, width, height, format, buffers)

    def stream_queue(self, client, width, height, format, depth):
        """Makes a queue stream, in which up to `depth` posted images wait, from 1 to 8, and of which each frame shows the next."""
        return self.call(client, 2, width, height, format, depth)

    def stream_destroy(self, client, stream):
        """Destroys a stream. What names it otherwise keeps it."""
        return self.call(client, 3, stream)

    def acquire(self, client, stream):
        """Takes a stream's write buffer."""
        return self.call(client, 4, stream)

    def stat(self, client, what):
        """Counts what is kept."""
        return self.call(client, 7, what)

    def device_new(self, client):
        """Makes a device."""
        return self.call(client, 8)

    def device_destroy(self, client, device):
        """Destroys a device, its contexts and all that is theirs."""
        return self.call(client, 9, device)

    def get_error(self, client, device):
        """Reads and clears a device's error register."""
        return self.call(client, 10, device)

    def screen_context(self, client, device, port):
        """Makes a context of a port's screen; ports count from 1."""
        return self.call(client, 11, device, port)

    def stream_context(self, client, device, stream):
        """Makes an off-screen context, which draws into a stream."""
        return self.call(client, 12, device, stream)

    def context_destroy(self, client, device, context):
        """Destroys a context with its elements, sources and masks."""
        return self.call(client, 13, device, context)

    def element_new(self, client, device, context):
        """Makes an element."""
        return self.call(client, 14, device, context)

    def element_destroy(self, client, device, element):
        """Destroys an element, which leaves the cached scene too."""
        return self.call(client, 15, device, element)

    def source_new(self, client, device, context, stream):
        """Makes a source, which shows a stream of pixels."""
        return self.call(client, 16, device, context, stream)

    def source_destroy(self, client, device, source):
        """Destroys a source."""
        return self.call(client, 17, device, source)

    def mask_new(self, client, device, context, stream):
        """Makes a mask, which shows a stream of alphas."""
        return self.call(client, 18, device, context, stream)

    def mask_destroy(self, client, device, mask):
        """Destroys a mask."""
        return self.call(client, 19, device, mask)

    def element_set(self, client, device, element, attr, value):
        """Sets an attribute of an element. Numbers that the attribute does not have are not read."""
        return self.call(client, 20, device, element, attr, *_four(value))

    def element_get(self, client, device, element, attr, index):
        """Reads one number of an attribute of an element, by its index from 0."""
        return self.call(client, 21, device, element, attr, index)

    def element_insert(self, client, device, element, below):
        """Inserts an element directly above another one, or at the bottom by 0; one that is inserted already is moved."""
        return self.call(client, 22, device, element, below)

    def element_remove(self, client, device, element):
        """Takes an element out of the cached scene."""
        return self.call(client, 23, device, element)

    def element_above(self, client, device, element):
        """Asks for the element directly above one."""
        return self.call(client, 24, device, element)

    def element_below(self, client, device, element):
        """Asks for the element directly below one."""
        return self.call(client, 25, device, element)

    def context_set(self, client, device, context, attr, value):
        """Sets an attribute of a context. Numbers that the attribute does not have are not read."""
        return self.call(client, 26, device, context, attr, *_four(value))

    def context_get(self, client, device, context, attr, index):
        """Reads one number of an attribute of a context, by its index from 0."""
        return self.call(client, 27, device, context, attr, index)

    def commit(self, client, device, context):
        """Makes the cached scene of a context its committed one, as a whole or not at all."""
        return self.call(client, 28, device, context)

    def activate(self, client, device, context):
        """Makes a context active: each tick begins a frame of it."""
        return self.call(client, 29, device, context)

    def deactivate(self, client, device, context):
        """Makes a context inactive."""
        return self.call(client, 30, device, context)

    def port_set(self, client, port, attr, value):
        """Sets an attribute of a port, counted from 1. Numbers that the attribute does not have are not read."""
        return self.call(client, 32, port, attr, *_four(value))

    def port_get(self, client, port, attr, index):
        """Reads one number of an attribute of a port, by its index from 0."""
        return self.call(client, 33, port, attr, index)

    def attach(self, client, port, on):
        """Attaches a display to a port by 1, or detaches it by 0, at once."""
        return self.call(client, 34, port, on)

    def pipe_set(self, client, pipe, attr, value):
        """Sets an attribute of a pipeline, counted from 1. Numbers that the attribute does not have are not read."""
        return self.call(client, 35, pipe, attr, *_four(value))

    def pipe_get(self, client, pipe, attr, index):
        """Reads one number of an attribute of a pipeline, by its index from 0."""
        return self.call(client, 36, pipe, attr, index)

    def pipe_bind_port(self, client, pipe, port):
        """Asks for a pipeline to be shown by a port, or by none by 0."""
        return self.call(client, 37, pipe, port)

    def display_source(self, client, pipe, stream):
        """Makes a source of a pipeline, which shows a stream of pixels."""
        return self.call(client, 38, pipe, stream)

    def display_source_destroy(self, client, source):
        """Destroys a source of a pipeline."""
        return self.call(client, 39, source)

    def pipe_bind_source(self, client, pipe, source, transition):
        """Asks for a pipeline to show a source of its own, or none by 0. It replaces an earlier request."""
        return self.call(client, 40, pipe, source, transition)

    def commit_device(self, client):
        """Makes what is cached of every port and pipeline committed, as a whole or not at all."""
        return self.call(client, 41)

    def commit_port(self, client, port):
        """Makes what is cached of a port and of its pipelines committed, as a whole or not at all."""
        return self.call(client, 42, port)

    def commit_pipe(self, client, pipe):
        """Makes what is cached of a pipeline committed, as a whole or not at all."""
        return self.call(client, 43, pipe)

    def display_error(self, client):
        """Reads and clears the display's error register."""
        return self.call(client, 44)

    # tools/calls writes what stands up to here
