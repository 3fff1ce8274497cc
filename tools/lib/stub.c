/* A core that knows no call, for trying the broker and what shows frames: it answers each frame with code 3, and the broker's one, that a
 * client is gone, with code 0. What is told comes on. A tick writes a frame of port 1, a pattern that moves, to descriptor 3; with
 * `--bands` it moves in some rows at each tick, and these alone are written where the output has a frame. With `--still N` the pattern
 * stays after N ticks, and then nothing comes but a frame with the first tick of another output. What is no frame ends it with status 1.
 * Of its other words it reads `--port WxH` alone. */
#include <stdbool.h>
#include <stdint.h>
#include <stdio.h>
#include <stdlib.h>
#include <string.h>
#include <unistd.h>

enum { MOST = 4194338, GONE = 0, TICK = 51, WAIT = 52, TELL = 53, TOLD = 55, LEFT = 56, BROKER = 255, MOST_SIDE = 1024, HEAD = 14 };

static uint8_t frame[MOST], shown[4 * MOST_SIDE * MOST_SIDE];
static uint32_t width = 1, height = 1, ticks, still = UINT32_MAX, last;
static bool has_bands, is_painted;

static void put_number(uint8_t *b, uint32_t n) {
    for (int i = 0; i < 4; i++) b[i] = (uint8_t)(n >> (24 - 8 * i));
}

static void answer(uint8_t client, uint8_t number, uint8_t code, uint32_t value, const uint8_t *bytes, uint32_t count) {
    uint8_t head[11] = {[4] = client, [5] = number, [6] = code};
    put_number(head, 7 + count);
    put_number(head + 7, value);
    if (fwrite(head, 1, sizeof head, stdout) != sizeof head || (count > 0 && fwrite(bytes, 1, count, stdout) != count)) exit(1);
}

static void put_bytes(const uint8_t *bytes, size_t count) {
    while (count > 0) {
        ssize_t done = write(3, bytes, count);
        if (done < 0) exit(1);
        bytes += done;
        count -= (size_t)done;
    }
}

/* Writes what a tick moves, unless it was written last: rows and columns, of which each pixel can be worked out. */
static void put_frame(void) {
    uint32_t moved = ticks < still ? ticks : still, first = 0, rows = height;
    if (moved == last) return;
    if (has_bands && is_painted) {
        rows = height / 4 + 1;
        first = 97 * moved % (height - rows + 1);
    }
    for (uint32_t i = width * first; i < width * (first + rows); i++) {
        const uint8_t pixel[] = {(uint8_t)(i % width + moved), (uint8_t)(i / width), (uint8_t)(255 - moved), 255};
        memcpy(shown + (size_t)4 * i, pixel, sizeof pixel);
    }
    bool is_band = has_bands && last != 0;
    if (!is_band) first = 0, rows = height;
    uint8_t head[HEAD] = {is_band ? 'B' : 'F', 1, [6] = (uint8_t)(width >> 8), (uint8_t)width, (uint8_t)(height >> 8), (uint8_t)height,
        (uint8_t)(first >> 8), (uint8_t)first, (uint8_t)(rows >> 8), (uint8_t)rows};
    put_number(head + 2, ticks);
    put_bytes(head, is_band ? HEAD : HEAD - 4);
    put_bytes(shown + (size_t)4 * width * first, (size_t)4 * width * rows);
    is_painted = true;
    last = moved;
}

static void serve(uint32_t length) {
    uint8_t client = frame[0], number = frame[1], other = length >= 10 ? frame[9] : 9;
    if (client == BROKER && number == GONE) {
        if (other == 8) last = 0;
        answer(0, LEFT, 0, other, NULL, 0);
        answer(BROKER, GONE, 0, 0, NULL, 0);
    } else if (client == 8 && number == TICK) {
        ticks++;
        put_frame();
        answer(client, number, 0, ticks, NULL, 0);
    } else if (number == TELL && other < 9 && length <= 10 + 4096) {
        answer(other, TOLD, 0, client, frame + 10, length - 10);
        answer(client, number, 0, 0, NULL, 0);
    } else if (number != WAIT) {
        answer(client, number, 3, 0, NULL, 0);
    }
}

int main(int argc, char **argv) {
    uint8_t head[4];
    for (int i = 1; i < argc; i++) {
        if (strcmp(argv[i], "--bands") == 0) has_bands = true;
        if (i + 1 == argc) break;
        if (strcmp(argv[i], "--still") == 0 && sscanf(argv[i + 1], "%u", &still) != 1) return 2;
        if (strcmp(argv[i], "--port") != 0) continue;
        if (sscanf(argv[i + 1], "%ux%u", &width, &height) != 2 || width - 1 >= MOST_SIDE || height - 1 >= MOST_SIDE) return 2;
    }
    for (;;) {
        size_t got = fread(head, 1, sizeof head, stdin);
        if (got == 0) return 0;
        uint32_t length = (uint32_t)head[0] << 24 | (uint32_t)head[1] << 16 | (uint32_t)head[2] << 8 | head[3];
        if (got < sizeof head || length < 2 || length > MOST || fread(frame, 1, length, stdin) != length) return 1;
        if (frame[0] > 8 && frame[0] != BROKER) return 1;
        serve(length);
        fflush(stdout);
    }
}
