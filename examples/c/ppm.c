/* Opens a machine with one port, shows two windows on it, and writes what the port shows as a PPM picture.
 *
 *     cc -Iinclude ppm.c -lweklandu && ./a.out > two.ppm
 */
#include "weklandu.h"

#include <stdio.h>
#include <stdlib.h>

enum { W = 320, H = 240, WINDOW_MANAGER = 0, APP = 1 };

/* The value of an answer, or the end of the program where a call was refused. */
static uint32_t need(wk_told told, const char *what) {
    if (told.code != WK_OK) {
        fprintf(stderr, "ppm: %s: code %u, value %u\n", what, (unsigned)told.code, (unsigned)told.value);
        exit(1);
    }
    return told.value;
}

/* A stream whose image has one colour, which gets lighter from row to row. */
static uint32_t window(wk_machine *m, uint32_t w, uint32_t h, uint8_t r, uint8_t g, uint8_t b) {
    uint32_t stream = need(wk_stream_new(m, APP, w, h, WK_FORMAT_RGBX8, 3), "stream");
    size_t bytes = (size_t)w * h * 4;
    uint8_t *pixels = malloc(bytes);
    if (!pixels) exit(1);
    for (size_t i = 0; i < (size_t)w * h; i++) {
        uint8_t light = (uint8_t)(i / w % 64);
        pixels[4 * i] = r;
        pixels[4 * i + 1] = (uint8_t)(g + light);
        pixels[4 * i + 2] = b;
        pixels[4 * i + 3] = 255;
    }
    need(wk_submit(m, APP, stream, pixels, bytes, (size_t)w * 4), "submit");
    free(pixels);
    return stream;
}

/* An element that shows a stream of this size at (x, y), twice as large, above `below`. */
static uint32_t show(wk_machine *m, uint32_t device, uint32_t context, uint32_t stream, int64_t x, int64_t y, int64_t w, int64_t h,
                     uint32_t below) {
    uint32_t element = need(wk_element_new(m, WINDOW_MANAGER, device, context), "element");
    uint32_t source = need(wk_source_new(m, WINDOW_MANAGER, device, context, stream), "source");
    const int64_t of[4] = {source}, from[4] = {0, 0, w, h}, dest[4] = {x, y, 2 * w, 2 * h};
    need(wk_element_set(m, WINDOW_MANAGER, device, element, WK_ELEMENT_SOURCE, of), "source of an element");
    need(wk_element_set(m, WINDOW_MANAGER, device, element, WK_ELEMENT_SRC_RECT, from), "rectangle of a source");
    need(wk_element_set(m, WINDOW_MANAGER, device, element, WK_ELEMENT_DEST, dest), "place on the screen");
    need(wk_element_insert(m, WINDOW_MANAGER, device, element, below), "insertion");
    return element;
}

/* One tick of the display: a frame of each active context, and then one of the port, whose picture stays in `frame`. */
static void tick(wk_machine *m, wk_frame *frame) {
    for (uint32_t context = 0;;) {
        context = need(wk_begin_next(m, frame, WINDOW_MANAGER, context), "frame of a context");
        if (context == 0) break;
        need(wk_end(m, frame, WINDOW_MANAGER), "end of a frame");
    }
    need(wk_begin_port(m, frame, WINDOW_MANAGER, 1), "frame of the port");
}

/* Writes the picture of a frame. */
static void write_picture(wk_frame *frame) {
    wk_extent extent = wk_frame_extent(frame);
    size_t stride = (size_t)extent.w * 4, bytes = stride * extent.h;
    uint8_t *out = malloc(bytes);
    if (!out || wk_read_frame(frame, out, bytes, stride, WK_RGBA) != WK_OK) exit(1);
    printf("P6\n%u %u\n255\n", (unsigned)extent.w, (unsigned)extent.h);
    for (size_t i = 0; i < bytes; i += 4) fwrite(out + i, 1, 3, stdout);
    free(out);
}

int main(void) {
    wk_machine m = {0};
    wk_frame frame = {0};
    const wk_mode mode = {1, W, H};
    if (wk_open(&m, 1, &mode, 1, 0) != WK_OK || wk_frame_open(&frame) != WK_OK) return 1;
    uint32_t back = window(&m, 80, 60, 40, 60, 120), front = window(&m, 60, 50, 230, 90, 40);
    uint32_t device = need(wk_device_new(&m, WINDOW_MANAGER), "device");
    uint32_t screen = need(wk_screen_context(&m, WINDOW_MANAGER, device, 1), "context of the port");
    uint32_t below = show(&m, device, screen, back, 20, 20, 80, 60, 0);
    show(&m, device, screen, front, 120, 90, 60, 50, below);
    need(wk_commit(&m, WINDOW_MANAGER, device, screen), "commit");
    need(wk_activate(&m, WINDOW_MANAGER, device, screen), "activation");
    tick(&m, &frame);
    write_picture(&frame);
    need(wk_end(&m, &frame, WINDOW_MANAGER), "end of the port's frame");
    wk_frame_close(&frame);
    wk_machine_close(&m);
    return 0;
}
