/* What calls of the library cost. With a kind and a count it makes so many calls of the kind, which a tool counts; with `copies` it prints
 * how long a submitted and a read picture of 1024 by 1024 take beside a copy of as many bytes. */
#include "weklandu.h"

#include <stdio.h>
#include <stdlib.h>
#include <string.h>
#include <time.h>

enum { SIDE = 1024, STRIDE = 4 * SIDE, BYTES = STRIDE * SIDE, ROUNDS = 40 };

static wk_machine machine;
static wk_frame frame;

static double now(void) {
    struct timespec t;
    clock_gettime(CLOCK_MONOTONIC, &t);
    return (double)t.tv_sec * 1e6 + (double)t.tv_nsec / 1e3;
}

static void keep(double *least, double from) {
    double took = now() - from;
    if (took < *least) *least = took;
}

/* The least time of each of several rounds. */
static int copies(void) {
    uint8_t *one = malloc(BYTES), *other = malloc(BYTES);
    uint32_t stream = wk_stream_new(&machine, 0, SIDE, SIDE, WK_FORMAT_RGBX8, 3).value;
    double copied = 1e9, submitted = 1e9, painted = 1e9, read = 1e9, swapped = 1e9;
    if (!one || !other || wk_frame_open(&frame) != WK_OK) return 1;
    memset(one, 1, BYTES);
    memset(other, 2, BYTES);
    for (int n = 0; n < ROUNDS; n++) {
        double from = now();
        memcpy(other, one, BYTES);
        keep(&copied, from);
        from = now();
        if (wk_submit(&machine, 0, stream, one, BYTES, STRIDE).code != WK_OK) return 1;
        keep(&submitted, from);
        if (wk_begin_port(&machine, &frame, 0, 1).code != WK_OK) return 1;
        from = now();
        wk_paint(&frame);
        keep(&painted, from);
        from = now();
        if (wk_read_frame(&frame, other, BYTES, STRIDE, WK_RGBA) != WK_OK) return 1;
        keep(&read, from);
        from = now();
        if (wk_read_frame(&frame, other, BYTES, STRIDE, WK_BGRA) != WK_OK) return 1;
        keep(&swapped, from);
        wk_end(&machine, &frame, 0);
    }
    printf("a copy of 1024x1024 takes %.0f us; submitted %.2f of it, an empty port painted %.2f, read %.2f, read blue first %.2f\n", copied,
           submitted / copied, painted / copied, read / copied, swapped / copied);
    return 0;
}

int main(int argc, char **argv) {
    const wk_mode mode = {1, SIDE, SIDE};
    const char *kind = argc > 1 ? argv[1] : "copies";
    if (wk_open(&machine, 1, &mode, 1, 0) != WK_OK) return 1;
    if (!strcmp(kind, "copies")) return copies();
    uint32_t device = wk_device_new(&machine, 0).value, screen = wk_screen_context(&machine, 0, device, 1).value;
    uint32_t element = wk_element_new(&machine, 0, device, screen).value;
    const int64_t dest[4] = {1, 2, 3, 4};
    for (long n = argc > 2 ? atol(argv[2]) : 0; n > 0; n--) {
        if (!strcmp(kind, "stat")) wk_stat(&machine, 0, WK_STAT_STREAMS);
        if (!strcmp(kind, "set")) wk_element_set(&machine, 0, device, element, WK_ELEMENT_DEST, dest);
        if (!strcmp(kind, "make")) wk_element_destroy(&machine, 0, device, wk_element_new(&machine, 0, device, screen).value);
        if (!strcmp(kind, "commit")) wk_commit(&machine, 0, device, screen);
    }
    return 0;
}
