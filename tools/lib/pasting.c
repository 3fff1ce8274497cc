/* Reads frames and bands from standard input in small pieces, and pastes them by live/output.h. Of each picture it copies to its own one of
 * the port what changed, as outputs do, and writes that to standard output: the port, and words of X R G B. */
#define _GNU_SOURCE
#include "../../live/output.h"

enum { SMALL = 7 };

static output own;
static uint8_t *pictures[MOST_PORTS];

static void put_picture(const shown *frame) {
    uint8_t **picture = &pictures[frame->port - 1];
    size_t stride = (size_t)frame->w * 4, count = stride * (size_t)frame->h;
    if (frame->rows == frame->h) *picture = realloc(*picture, count); /* its sides may be others */
    if (!*picture) abort();
    copy_rows(frame, *picture, stride, frame->w, frame->first, frame->first + frame->rows);
    if (putchar(frame->port) == EOF || fwrite(*picture, 1, count, stdout) != count) exit(1);
}

int main(void) {
    uint8_t piece[SMALL];
    for (ssize_t count; (count = read(STDIN_FILENO, piece, sizeof piece)) > 0;) {
        add(&own.pixels, piece, (size_t)count);
        for (shown frame; get_frame(&own, &frame);) put_picture(&frame);
    }
    return held(&own.pixels) == 0 ? 0 : 2;
}
