/* An app: a window that is drawn anew at each tick.
 *
 *     cc -O2 -o waves waves.c && ./waves DIR W H [FRAMES]
 *
 * DIR has the sockets of the broker. After FRAMES frames it ends, and tells how long they took. The patterns follow the numbers of frames
 * alone, so that a test sees the same each time.
 */
#define _GNU_SOURCE
#include "wfclient.h"
#include "words.h"

#include <stdio.h>
#include <stdlib.h>
#include <time.h>

typedef struct window { wf_client client; uint32_t stream; int w, h; bool is_closed, is_asked; } window;

static double now(void) {
    struct timespec t;
    clock_gettime(CLOCK_MONOTONIC, &t);
    return (double)t.tv_sec + (double)t.tv_nsec / 1e9;
}

/* Draws the picture of a number. */
static void draw(uint8_t *pixels, int w, int h, long number) {
    for (int y = 0; y < h; y++) {
        for (int x = 0; x < w; x++, pixels += 4) {
            uint8_t value = (uint8_t)((x + 2 * number) ^ (y + number));
            pixels[0] = value;
            pixels[1] = (uint8_t)(value * x / w);
            pixels[2] = (uint8_t)(255 - value);
            pixels[3] = 255;
        }
    }
}

/* What others tell: whether the window was closed, or is asked for again. */
static void hear(void *of, wf_heard what) {
    window *own = of;
    word told;
    if (what.number != WF_HEARD_TOLD || !get_word(what.bytes, what.count, &told)) return;
    own->is_closed |= told.letter == CLOSE;
    own->is_asked |= told.letter == AGAIN;
}

/* Asks the window manager to show the stream. */
static void show(window *own) {
    uint8_t told[WORD];
    put_word(told, (word){SHOW, (int32_t)own->stream, own->w, own->h});
    own->is_asked = false;
    wf_tell(&own->client, WF_MANAGER, told, sizeof told);
}

/* Shows a picture. False where the broker is gone. A stream whose buffers are all taken shows the next one. */
static bool shows(window *own, uint8_t *pixels, long number) {
    draw(pixels, own->w, own->h, number);
    wf_begin(&own->client);
    wf_acquire(&own->client, own->stream);
    wf_put(&own->client, 0, 0, own->w, own->h, pixels, (size_t)own->w * (size_t)own->h * 4);
    wf_post(&own->client);
    return wf_end(&own->client).code != WF_LOST;
}

int main(int argc, char **argv) {
    char path[100];
    window own = {.w = argc > 3 ? atoi(argv[2]) : 0, .h = argc > 3 ? atoi(argv[3]) : 0};
    if (own.w < 1 || own.h < 1) return fprintf(stderr, "usage: waves DIR W H [FRAMES]\n"), 2;
    long frames = argc > 4 ? atol(argv[4]) : 0, number = 0;
    snprintf(path, sizeof path, "%s/app", argv[1]);
    if (wf_open(&own.client, path)) return perror(path), 1;
    own.client.heard = hear;
    own.client.of = &own;
    wf_told made = wf_stream_new(&own.client, own.w, own.h, WF_FORMAT_RGBX8, 3);
    if (made.code != WF_CODE_OK) return fprintf(stderr, "waves: no stream: code %u\n", made.code), 1;
    own.stream = made.value;
    uint8_t *pixels = malloc((size_t)own.w * (size_t)own.h * 4);
    if (!pixels) return 1;
    show(&own);
    double begun = now();
    for (; !own.is_closed && (frames == 0 || number < frames); number++) {
        if (!shows(&own, pixels, number) || wf_wait(&own.client).code == WF_LOST) break;
        if (own.is_asked) show(&own);
    }
    double took = now() - begun;
    fprintf(stderr, "waves: %ld frames in %.2f s, %.1f a second\n", number, took, (double)number / took);
    free(pixels);
    wf_close(&own.client);
    return 0;
}
