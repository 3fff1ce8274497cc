/* Tells what messages take, as an app: one after the other, sent together, and uploads.
 *
 *     cc -O2 -o measure measure.c && ./measure DIR calls N | ./measure DIR together N | ./measure DIR put W H N
 *
 * Each prints the time of one on average, the longest wait for an answer, and how many came in a second.
 */
#define _GNU_SOURCE
#include "wfclient.h"

#include <stdio.h>
#include <stdlib.h>
#include <time.h>

enum { TOGETHER = 100 };

static wf_client client;

static double now(void) {
    struct timespec t;
    clock_gettime(CLOCK_MONOTONIC, &t);
    return (double)t.tv_sec + (double)t.tv_nsec / 1e9;
}

/* Sends one message, or many together, and waits. */
static wf_told once(const char *what, int w, int h, const uint8_t *pixels) {
    if (strcmp(what, "put") == 0) return wf_put(&client, 0, 0, w, h, pixels, (size_t)w * (size_t)h * 4);
    if (strcmp(what, "calls") == 0) return wf_fill(&client, 1, 2, 3, 4);
    wf_begin(&client);
    for (int i = 0; i < TOGETHER; i++) wf_fill(&client, 1, 2, 3, 4);
    return wf_end(&client);
}

int main(int argc, char **argv) {
    char path[100];
    bool is_put = argc == 6 && strcmp(argv[2], "put") == 0;
    if (!is_put && argc != 4) return fprintf(stderr, "usage: measure DIR calls N | together N | put W H N\n"), 2;
    int w = is_put ? atoi(argv[3]) : 16, h = is_put ? atoi(argv[4]) : 16, count = atoi(argv[argc - 1]);
    int each = strcmp(argv[2], "together") == 0 ? TOGETHER : 1;
    snprintf(path, sizeof path, "%s/app", argv[1]);
    if (wf_open(&client, path)) return perror(path), 1;
    wf_told made = wf_stream_new(&client, w, h, WF_FORMAT_RGBX8, 2), told = wf_acquire(&client, made.value);
    uint8_t *pixels = calloc((size_t)w * (size_t)h, 4);
    if (!pixels) return 1;
    double begun = now(), most = 0;
    for (int i = 0; i < count; i++) {
        double before = now();
        told = once(argv[2], w, h, pixels);
        if (told.code == WF_LOST) return 1;
        if (now() - before > most) most = now() - before;
    }
    double took = now() - begun;
    printf("%s: code %u, %.4f ms each, at most %.3f ms, %.0f in a second\n", argv[2], (unsigned)told.code, 1000 * took / count / each,
           1000 * most, count * each / took);
    free(pixels);
    wf_close(&client);
    return 0;
}
