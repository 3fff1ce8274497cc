/* Two threads share a machine under a lock: one draws images of one colour each, the other composes, paints and reads outside of the lock.
 * A picture has to be of one colour: it is that of the image which was newest as the frame began. */
#include "weklandu.h"

#include <pthread.h>
#include <stdio.h>
#include <stdlib.h>
#include <string.h>

enum { W = 32, H = 24, BYTES = 4 * W * H };

static wk_machine machine;
static wk_frame frame;
static pthread_mutex_t lock = PTHREAD_MUTEX_INITIALIZER;
static uint32_t stream;
static long rounds;

static uint32_t need(wk_told told, const char *what) {
    if (told.code != WK_OK) {
        printf("%s: code %u\n", what, (unsigned)told.code);
        exit(1);
    }
    return told.value;
}

static void *draw(void *none) {
    uint8_t pixels[BYTES];
    for (long n = 1; n <= rounds; n++) {
        memset(pixels, (int)(n % 251 + 1), sizeof pixels);
        pthread_mutex_lock(&lock);
        need(wk_submit(&machine, 1, stream, pixels, sizeof pixels, 4 * W), "submit");
        pthread_mutex_unlock(&lock);
    }
    return none;
}

/* Reads the picture outside of the lock. */
static void look(void) {
    uint8_t out[BYTES];
    wk_paint(&frame);
    if (wk_read_frame(&frame, out, sizeof out, 4 * W, WK_RGBA) != WK_OK) {
        printf("no picture\n");
        exit(1);
    }
    for (int i = 0; i < BYTES; i++) {
        if (i % 4 != 3 && out[i] != out[0]) {
            printf("byte %d is %d, and the first %d\n", i, out[i], out[0]);
            exit(1);
        }
    }
}

static void tick(void) {
    for (uint32_t context = 0;;) {
        pthread_mutex_lock(&lock);
        context = need(wk_begin_next(&machine, &frame, 0, context), "frame of a context");
        pthread_mutex_unlock(&lock);
        if (context == 0) break;
        wk_paint(&frame);
        pthread_mutex_lock(&lock);
        need(wk_end(&machine, &frame, 0), "end");
        pthread_mutex_unlock(&lock);
    }
    pthread_mutex_lock(&lock);
    need(wk_begin_port(&machine, &frame, 0, 1), "frame of the port");
    pthread_mutex_unlock(&lock);
    look();
    pthread_mutex_lock(&lock);
    need(wk_end(&machine, &frame, 0), "end of the port's frame");
    pthread_mutex_unlock(&lock);
}

static void open_scene(void) {
    const wk_mode mode = {1, W, H};
    if (wk_open(&machine, 1, &mode, 1, 0) != WK_OK || wk_frame_open(&frame) != WK_OK) exit(1);
    stream = need(wk_stream_new(&machine, 1, W, H, WK_FORMAT_RGBX8, 3), "stream");
    uint32_t device = need(wk_device_new(&machine, 0), "device"), screen = need(wk_screen_context(&machine, 0, device, 1), "context");
    uint32_t element = need(wk_element_new(&machine, 0, device, screen), "element");
    const int64_t source[4] = {need(wk_source_new(&machine, 0, device, screen, stream), "source")}, whole[4] = {0, 0, W, H};
    need(wk_element_set(&machine, 0, device, element, WK_ELEMENT_SOURCE, source), "source of an element");
    need(wk_element_set(&machine, 0, device, element, WK_ELEMENT_SRC_RECT, whole), "rectangle of a source");
    need(wk_element_set(&machine, 0, device, element, WK_ELEMENT_DEST, whole), "place");
    need(wk_element_insert(&machine, 0, device, element, 0), "insertion");
    need(wk_commit(&machine, 0, device, screen), "commit");
    need(wk_activate(&machine, 0, device, screen), "activation");
}

int main(int argc, char **argv) {
    pthread_t drawer;
    rounds = argc > 1 ? atol(argv[1]) : 1000;
    open_scene();
    if (pthread_create(&drawer, NULL, draw, NULL)) return 1;
    for (long n = 0; n < rounds; n++) tick();
    pthread_join(drawer, NULL);
    wk_frame_close(&frame);
    wk_machine_close(&machine);
    printf("all pictures were whole\n");
    return 0;
}
