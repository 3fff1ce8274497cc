/* A compositor's machine for C and C++: streams of images, scenes of elements, frames whose pictures are proved.
 *
 * A machine and a place for frames stand behind handles, which a caller keeps in memory of its own. All zero, a handle is closed.
 * Each call tests what it is given: where a handle is closed or leads to the other thing, where an argument is none, where bytes have
 * no room or nothing is held, its code is WK_NOT_MADE, nothing changes, and no call of the machine was made. Any other code and the
 * value are the machine's answer (docs/profile.md).
 *
 * What a caller owes, since nothing can test it:
 * - A handle is all zero before it is opened. It is not copied, and written by these functions alone.
 * - A pointer leads to as many elements as the count after it says, and is not null, also where the count is 0. What two arguments of
 *   one call lead to does not overlap.
 * - One call at a time on one handle, as under a mutex, which is the caller's: nothing here locks or waits. A handle may be used by one
 *   thread after another. wk_paint, wk_frame_extent and wk_read_frame need the frame's handle alone, so a caller paints and reads outside
 *   of the machine's mutex, and holds it for wk_begin_* and wk_end.
 * - No call from a signal handler, nor in a child between fork and exec. malloc, realloc and free are those of one allocator.
 * - A thread that paints has 192 KB of stack: wk_paint, wk_read_frame and wk_end of a frame that was not painted yet.
 *
 * A client is a number of the caller's, which says who called and changes no answer. Pixels stand row by row, stride bytes apart. Link
 * with -lweklandu. The library calls malloc, realloc, free, memcpy, memmove and memset, and nothing else.
 */
#ifndef WEKLANDU_H
#define WEKLANDU_H

#include <stddef.h>
#include <stdint.h>

#ifdef __cplusplus
extern "C" {
#endif

/* A machine, and a place for one frame after another. */
typedef struct wk_machine { void *at; uint32_t live; } wk_machine;
typedef struct wk_frame { void *at; uint32_t live; } wk_frame;

/* What a call answers: an enum wk_code, and a value, which is the handle of what was made, or a number that was asked for. */
typedef struct wk_told { uint8_t code; uint32_t value; } wk_told;

/* A mode of a port, which is counted from 1. The first of a port is the one that it opens in. */
typedef struct wk_mode { uint32_t port, w, h; } wk_mode;

/* The sides of a picture, in pixels; both 0 where there is none. */
typedef struct wk_extent { uint32_t w, h; } wk_extent;

/* The order of the bytes of a pixel that is read. WK_BGRA is DRM_FORMAT_XRGB8888 and DRM_FORMAT_ARGB8888 on a little-endian machine. */
enum wk_order { WK_RGBA = 0, WK_BGRA = 1 };

/* Parts of the transparency of an element, which are added. */
enum { WK_ALPHA = 1, WK_SOURCE = 2, WK_MASK = 4 };

/* tools/calls writes what stands from here on. */

enum wk_code {
    WK_OK = 0,
    WK_OUT_OF_MEMORY = 1,
    WK_ILLEGAL_ARGUMENT = 2,
    WK_UNSUPPORTED = 3,
    WK_NOT_SUPPORTED = 4,
    WK_BAD_ATTRIBUTE = 5,
    WK_IN_USE = 6,
    WK_BUSY = 7,
    WK_NO_BUFFER = 8,
    WK_BAD_DEVICE = 9,
    WK_BAD_HANDLE = 10,
    WK_INCONSISTENCY = 11,
    WK_LIMIT = 12,
    WK_NOT_MADE = 255
};

enum wk_format {
    WK_FORMAT_RGBA8 = 0,
    WK_FORMAT_RGBA8_PRE = 1,
    WK_FORMAT_RGBX8 = 2,
    WK_FORMAT_A8 = 3
};

enum wk_stat {
    WK_STAT_STREAMS = 0,
    WK_STAT_BYTES = 1
};

enum wk_transition {
    WK_TRANSITION_NOW = 0,
    WK_TRANSITION_VSYNC = 1
};

enum wk_element {
    WK_ELEMENT_DEST = 0,
    WK_ELEMENT_SOURCE = 1,
    WK_ELEMENT_SRC_RECT = 2,
    WK_ELEMENT_FLIP = 3,
    WK_ELEMENT_ROTATION = 4,
    WK_ELEMENT_FILTER = 5,
    WK_ELEMENT_TRANSPARENCY = 6,
    WK_ELEMENT_ALPHA = 7,
    WK_ELEMENT_MASK = 8
};

enum wk_context {
    WK_CONTEXT_ROTATION = 0,
    WK_CONTEXT_BACKGROUND = 1,
    WK_CONTEXT_WIDTH = 2,
    WK_CONTEXT_HEIGHT = 3,
    WK_CONTEXT_LOWEST = 4
};

enum wk_port {
    WK_PORT_MODE = 0,
    WK_PORT_BACKGROUND = 1,
    WK_PORT_POWER = 2,
    WK_PORT_WIDTH = 3,
    WK_PORT_HEIGHT = 4,
    WK_PORT_ATTACHED = 5
};

enum wk_pipe {
    WK_PIPE_DEST = 0,
    WK_PIPE_SRC_RECT = 1,
    WK_PIPE_FLIP = 2,
    WK_PIPE_ROTATION = 3,
    WK_PIPE_FILTER = 4,
    WK_PIPE_ALPHA = 5,
    WK_PIPE_TRANSPARENCY = 6,
    WK_PIPE_PORT = 7,
    WK_PIPE_PENDING = 8,
    WK_PIPE_SHOWING = 9
};

/* tools/calls writes what stands up to here. */

/* Opens a machine with 1 to 4 ports, each of 1 to 4 modes, and up to 8 pipelines. WK_ILLEGAL_ARGUMENT where these may not be declared,
 * WK_OUT_OF_MEMORY, or WK_NOT_MADE where the handle is open. */
uint8_t wk_open(wk_machine *machine, uint32_t ports, const wk_mode *modes, size_t count, uint32_t pipes);

/* Opens a place for frames. WK_OUT_OF_MEMORY, or WK_NOT_MADE where the handle is open. */
uint8_t wk_frame_open(wk_frame *frame);

/* Close what is open, free its memory, and leave the handle all zero. A closed one stays so. */
void wk_close(void *handle);
static inline void wk_machine_close(wk_machine *machine) { wk_close(machine); }
static inline void wk_frame_close(wk_frame *frame) { wk_close(frame); }

/* Makes the call of a message by its number (docs/formats.md), with its arguments as 64 bits each, in two's complement. The functions
 * below make each call by its name. */
wk_told wk_call(wk_machine *machine, uint8_t client, uint8_t number, const uint64_t *bits, size_t count);

/* Posts the write buffer that wk_acquire took of a stream, or gives it back unseen. One that is refused is held as before. */
wk_told wk_post(wk_machine *machine, uint8_t client, uint32_t stream);
wk_told wk_discard(wk_machine *machine, uint8_t client, uint32_t stream);

/* 1 where a write buffer of a stream is held. */
uint8_t wk_holds(wk_machine *machine, uint32_t stream);

/* Writes pixels into the write buffer that is held of a stream, whole. WK_NOT_MADE where none is, or where the pixels are not its rows. */
uint8_t wk_write(wk_machine *machine, uint32_t stream, const uint8_t *pixels, size_t bytes, size_t stride);

/* Takes the write buffer of a stream, writes pixels into it and posts it, in one: what a client commits. Where the pixels are not its
 * rows the buffer is given back, and the code is WK_NOT_MADE. */
wk_told wk_submit(wk_machine *machine, uint8_t client, uint32_t stream, const uint8_t *pixels, size_t bytes, size_t stride);

/* Begin a frame: of the active context with the least handle above `after`, whose handle is the value, 0 where there is none and no frame
 * begins; of a port; of a context that is not active. WK_NOT_MADE where a frame stands in that place already. */
wk_told wk_begin_next(wk_machine *machine, wk_frame *frame, uint8_t client, uint32_t after);
wk_told wk_begin_port(wk_machine *machine, wk_frame *frame, uint8_t client, int64_t port);
wk_told wk_begin_context(wk_machine *machine, wk_frame *frame, uint8_t client, uint32_t device, uint32_t context);

/* Paints the picture of a frame. Without it, whatever needs the picture first paints it. */
void wk_paint(wk_frame *frame);

/* The sides of the picture. */
wk_extent wk_frame_extent(wk_frame *frame);

/* Copies the picture out: it is that of the scene and of the images at the frame's begin. WK_NOT_MADE where no frame stands there, or
 * where the bytes have no room for its rows; nothing is written then. */
uint8_t wk_read_frame(wk_frame *frame, uint8_t *out, size_t bytes, size_t stride, uint32_t order);

/* Ends the frame, which the machine takes back. One of another machine is refused, and stays. */
wk_told wk_end(wk_machine *machine, wk_frame *frame, uint8_t client);

/* tools/calls writes what stands from here on. */

/* Makes a stream of 2 to 4 buffers, each an image of this size and format with sides from 1 to `MOST_SIDE`. */
static inline wk_told wk_stream_new(
    wk_machine *machine, uint8_t client, int64_t width, int64_t height, enum wk_format format, int64_t buffers
) {
    const uint64_t bits[] = {(uint64_t)width, (uint64_t)height, (uint64_t)format, (uint64_t)buffers};
    return wk_call(machine, client, 1, bits, 4);
}

/* Makes a queue stream, in which up to `depth` posted images wait, from 1 to 8, and of which each frame shows the next. */
static inline wk_told wk_stream_queue(
    wk_machine *machine, uint8_t client, int64_t width, int64_t height, enum wk_format format, int64_t depth
) {
    const uint64_t bits[] = {(uint64_t)width, (uint64_t)height, (uint64_t)format, (uint64_t)depth};
    return wk_call(machine, client, 2, bits, 4);
}

/* Destroys a stream. What names it otherwise keeps it. */
static inline wk_told wk_stream_destroy(wk_machine *machine, uint8_t client, uint32_t stream) {
    const uint64_t bits[] = {(uint64_t)stream};
    return wk_call(machine, client, 3, bits, 1);
}

/* Takes a stream's write buffer. */
static inline wk_told wk_acquire(wk_machine *machine, uint8_t client, uint32_t stream) {
    const uint64_t bits[] = {(uint64_t)stream};
    return wk_call(machine, client, 4, bits, 1);
}

/* Counts what is kept. */
static inline wk_told wk_stat(wk_machine *machine, uint8_t client, enum wk_stat what) {
    const uint64_t bits[] = {(uint64_t)what};
    return wk_call(machine, client, 7, bits, 1);
}

/* Makes a device. */
static inline wk_told wk_device_new(wk_machine *machine, uint8_t client) {
    const uint64_t bits[] = {0};
    return wk_call(machine, client, 8, bits, 0);
}

/* Destroys a device, its contexts and all that is theirs. */
static inline wk_told wk_device_destroy(wk_machine *machine, uint8_t client, uint32_t device) {
    const uint64_t bits[] = {(uint64_t)device};
    return wk_call(machine, client, 9, bits, 1);
}

/* Reads and clears a device's error register. */
static inline wk_told wk_get_error(wk_machine *machine, uint8_t client, uint32_t device) {
    const uint64_t bits[] = {(uint64_t)device};
    return wk_call(machine, client, 10, bits, 1);
}

/* Makes a context of a port's screen; ports count from 1. */
static inline wk_told wk_screen_context(wk_machine *machine, uint8_t client, uint32_t device, int64_t port) {
    const uint64_t bits[] = {(uint64_t)device, (uint64_t)port};
    return wk_call(machine, client, 11, bits, 2);
}

/* Makes an off-screen context, which draws into a stream. */
static inline wk_told wk_stream_context(wk_machine *machine, uint8_t client, uint32_t device, uint32_t stream) {
    const uint64_t bits[] = {(uint64_t)device, (uint64_t)stream};
    return wk_call(machine, client, 12, bits, 2);
}

/* Destroys a context with its elements, sources and masks. */
static inline wk_told wk_context_destroy(wk_machine *machine, uint8_t client, uint32_t device, uint32_t context) {
    const uint64_t bits[] = {(uint64_t)device, (uint64_t)context};
    return wk_call(machine, client, 13, bits, 2);
}

/* Makes an element. */
static inline wk_told wk_element_new(wk_machine *machine, uint8_t client, uint32_t device, uint32_t context) {
    const uint64_t bits[] = {(uint64_t)device, (uint64_t)context};
    return wk_call(machine, client, 14, bits, 2);
}

/* Destroys an element, which leaves the cached scene too. */
static inline wk_told wk_element_destroy(wk_machine *machine, uint8_t client, uint32_t device, uint32_t element) {
    const uint64_t bits[] = {(uint64_t)device, (uint64_t)element};
    return wk_call(machine, client, 15, bits, 2);
}

/* Makes a source, which shows a stream of pixels. */
static inline wk_told wk_source_new(wk_machine *machine, uint8_t client, uint32_t device, uint32_t context, uint32_t stream) {
    const uint64_t bits[] = {(uint64_t)device, (uint64_t)context, (uint64_t)stream};
    return wk_call(machine, client, 16, bits, 3);
}

/* Destroys a source. */
static inline wk_told wk_source_destroy(wk_machine *machine, uint8_t client, uint32_t device, uint32_t source) {
    const uint64_t bits[] = {(uint64_t)device, (uint64_t)source};
    return wk_call(machine, client, 17, bits, 2);
}

/* Makes a mask, which shows a stream of alphas. */
static inline wk_told wk_mask_new(wk_machine *machine, uint8_t client, uint32_t device, uint32_t context, uint32_t stream) {
    const uint64_t bits[] = {(uint64_t)device, (uint64_t)context, (uint64_t)stream};
    return wk_call(machine, client, 18, bits, 3);
}

/* Destroys a mask. */
static inline wk_told wk_mask_destroy(wk_machine *machine, uint8_t client, uint32_t device, uint32_t mask) {
    const uint64_t bits[] = {(uint64_t)device, (uint64_t)mask};
    return wk_call(machine, client, 19, bits, 2);
}

/* Sets an attribute of an element. Numbers that the attribute does not have are not read. */
static inline wk_told wk_element_set(
    wk_machine *machine, uint8_t client, uint32_t device, uint32_t element, enum wk_element attr, const int64_t value[4]
) {
    const uint64_t bits[] = {(uint64_t)device, (uint64_t)element, (uint64_t)attr, (uint64_t)value[0], (uint64_t)value[1], (uint64_t)value[2], (uint64_t)value[3]};
    return wk_call(machine, client, 20, bits, 7);
}

/* Reads one number of an attribute of an element, by its index from 0. */
static inline wk_told wk_element_get(
    wk_machine *machine, uint8_t client, uint32_t device, uint32_t element, enum wk_element attr, int64_t index
) {
    const uint64_t bits[] = {(uint64_t)device, (uint64_t)element, (uint64_t)attr, (uint64_t)index};
    return wk_call(machine, client, 21, bits, 4);
}

/* Inserts an element directly above another one, or at the bottom by 0; one that is inserted already is moved. */
static inline wk_told wk_element_insert(wk_machine *machine, uint8_t client, uint32_t device, uint32_t element, uint32_t below) {
    const uint64_t bits[] = {(uint64_t)device, (uint64_t)element, (uint64_t)below};
    return wk_call(machine, client, 22, bits, 3);
}

/* Takes an element out of the cached scene. */
static inline wk_told wk_element_remove(wk_machine *machine, uint8_t client, uint32_t device, uint32_t element) {
    const uint64_t bits[] = {(uint64_t)device, (uint64_t)element};
    return wk_call(machine, client, 23, bits, 2);
}

/* Asks for the element directly above one. */
static inline wk_told wk_element_above(wk_machine *machine, uint8_t client, uint32_t device, uint32_t element) {
    const uint64_t bits[] = {(uint64_t)device, (uint64_t)element};
    return wk_call(machine, client, 24, bits, 2);
}

/* Asks for the element directly below one. */
static inline wk_told wk_element_below(wk_machine *machine, uint8_t client, uint32_t device, uint32_t element) {
    const uint64_t bits[] = {(uint64_t)device, (uint64_t)element};
    return wk_call(machine, client, 25, bits, 2);
}

/* Sets an attribute of a context. Numbers that the attribute does not have are not read. */
static inline wk_told wk_context_set(
    wk_machine *machine, uint8_t client, uint32_t device, uint32_t context, enum wk_context attr, const int64_t value[4]
) {
    const uint64_t bits[] = {(uint64_t)device, (uint64_t)context, (uint64_t)attr, (uint64_t)value[0], (uint64_t)value[1], (uint64_t)value[2], (uint64_t)value[3]};
    return wk_call(machine, client, 26, bits, 7);
}

/* Reads one number of an attribute of a context, by its index from 0. */
static inline wk_told wk_context_get(
    wk_machine *machine, uint8_t client, uint32_t device, uint32_t context, enum wk_context attr, int64_t index
) {
    const uint64_t bits[] = {(uint64_t)device, (uint64_t)context, (uint64_t)attr, (uint64_t)index};
    return wk_call(machine, client, 27, bits, 4);
}

/* Makes the cached scene of a context its committed one, as a whole or not at all. */
static inline wk_told wk_commit(wk_machine *machine, uint8_t client, uint32_t device, uint32_t context) {
    const uint64_t bits[] = {(uint64_t)device, (uint64_t)context};
    return wk_call(machine, client, 28, bits, 2);
}

/* Makes a context active: each tick begins a frame of it. */
static inline wk_told wk_activate(wk_machine *machine, uint8_t client, uint32_t device, uint32_t context) {
    const uint64_t bits[] = {(uint64_t)device, (uint64_t)context};
    return wk_call(machine, client, 29, bits, 2);
}

/* Makes a context inactive. */
static inline wk_told wk_deactivate(wk_machine *machine, uint8_t client, uint32_t device, uint32_t context) {
    const uint64_t bits[] = {(uint64_t)device, (uint64_t)context};
    return wk_call(machine, client, 30, bits, 2);
}

/* Sets an attribute of a port, counted from 1. Numbers that the attribute does not have are not read. */
static inline wk_told wk_port_set(wk_machine *machine, uint8_t client, int64_t port, enum wk_port attr, const int64_t value[4]) {
    const uint64_t bits[] = {(uint64_t)port, (uint64_t)attr, (uint64_t)value[0], (uint64_t)value[1], (uint64_t)value[2], (uint64_t)value[3]};
    return wk_call(machine, client, 32, bits, 6);
}

/* Reads one number of an attribute of a port, by its index from 0. */
static inline wk_told wk_port_get(wk_machine *machine, uint8_t client, int64_t port, enum wk_port attr, int64_t index) {
    const uint64_t bits[] = {(uint64_t)port, (uint64_t)attr, (uint64_t)index};
    return wk_call(machine, client, 33, bits, 3);
}

/* Attaches a display to a port by 1, or detaches it by 0, at once. */
static inline wk_told wk_attach(wk_machine *machine, uint8_t client, int64_t port, int64_t on) {
    const uint64_t bits[] = {(uint64_t)port, (uint64_t)on};
    return wk_call(machine, client, 34, bits, 2);
}

/* Sets an attribute of a pipeline, counted from 1. Numbers that the attribute does not have are not read. */
static inline wk_told wk_pipe_set(wk_machine *machine, uint8_t client, int64_t pipe, enum wk_pipe attr, const int64_t value[4]) {
    const uint64_t bits[] = {(uint64_t)pipe, (uint64_t)attr, (uint64_t)value[0], (uint64_t)value[1], (uint64_t)value[2], (uint64_t)value[3]};
    return wk_call(machine, client, 35, bits, 6);
}

/* Reads one number of an attribute of a pipeline, by its index from 0. */
static inline wk_told wk_pipe_get(wk_machine *machine, uint8_t client, int64_t pipe, enum wk_pipe attr, int64_t index) {
    const uint64_t bits[] = {(uint64_t)pipe, (uint64_t)attr, (uint64_t)index};
    return wk_call(machine, client, 36, bits, 3);
}

/* Asks for a pipeline to be shown by a port, or by none by 0. */
static inline wk_told wk_pipe_bind_port(wk_machine *machine, uint8_t client, int64_t pipe, int64_t port) {
    const uint64_t bits[] = {(uint64_t)pipe, (uint64_t)port};
    return wk_call(machine, client, 37, bits, 2);
}

/* Makes a source of a pipeline, which shows a stream of pixels. */
static inline wk_told wk_display_source(wk_machine *machine, uint8_t client, int64_t pipe, uint32_t stream) {
    const uint64_t bits[] = {(uint64_t)pipe, (uint64_t)stream};
    return wk_call(machine, client, 38, bits, 2);
}

/* Destroys a source of a pipeline. */
static inline wk_told wk_display_source_destroy(wk_machine *machine, uint8_t client, uint32_t source) {
    const uint64_t bits[] = {(uint64_t)source};
    return wk_call(machine, client, 39, bits, 1);
}

/* Asks for a pipeline to show a source of its own, or none by 0. It replaces an earlier request. */
static inline wk_told wk_pipe_bind_source(wk_machine *machine, uint8_t client, int64_t pipe, uint32_t source, enum wk_transition transition) {
    const uint64_t bits[] = {(uint64_t)pipe, (uint64_t)source, (uint64_t)transition};
    return wk_call(machine, client, 40, bits, 3);
}

/* Makes what is cached of every port and pipeline committed, as a whole or not at all. */
static inline wk_told wk_commit_device(wk_machine *machine, uint8_t client) {
    const uint64_t bits[] = {0};
    return wk_call(machine, client, 41, bits, 0);
}

/* Makes what is cached of a port and of its pipelines committed, as a whole or not at all. */
static inline wk_told wk_commit_port(wk_machine *machine, uint8_t client, int64_t port) {
    const uint64_t bits[] = {(uint64_t)port};
    return wk_call(machine, client, 42, bits, 1);
}

/* Makes what is cached of a pipeline committed, as a whole or not at all. */
static inline wk_told wk_commit_pipe(wk_machine *machine, uint8_t client, int64_t pipe) {
    const uint64_t bits[] = {(uint64_t)pipe};
    return wk_call(machine, client, 43, bits, 1);
}

/* Reads and clears the display's error register. */
static inline wk_told wk_display_error(wk_machine *machine, uint8_t client) {
    const uint64_t bits[] = {0};
    return wk_call(machine, client, 44, bits, 0);
}

/* tools/calls writes what stands up to here. */

#ifdef __cplusplus
}
#endif
#endif
