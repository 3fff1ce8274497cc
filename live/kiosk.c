/* The smallest window manager: the newest app has the whole screen, in its middle, and a pointer stands on pipeline 1 where there is one.
 *
 *     cc -O2 -o kiosk kiosk.c && ./kiosk DIR
 *
 * DIR has the sockets of the broker. Where an app leaves, the one before it is shown again. A press goes to the app that is shown.
 */
#define _GNU_SOURCE
#include "wfclient.h"
#include "words.h"

#include <stdio.h>
#include <stdlib.h>

enum { PORT = 1, PIPE = 1, APPS = 7, POINTER = 12 };

/* An app that is shown: its number, its element, its source, and where it stands. */
typedef struct shown { uint8_t app; uint32_t element, source; int32_t x, y; } shown;
/* What came and is not done yet: which apps left, and which streams they asked for after that; where the pointer is, and was pressed last.
 * So no app can fill it, and nothing but older moves and presses is lost. */
typedef struct pending {
    bool has_left[APPS + 1], shows[APPS + 1], is_moved, is_pressed;
    uint32_t streams[APPS + 1];
    word move, press;
} pending;

static wf_client client;
static uint32_t device, context;
static int32_t width, height;
static shown apps[APPS];
static int count;
static bool has_pointer;
static pending came;

/* The value of an answer, or the end where it was refused. */
static uint32_t need(wf_told told, const char *what) {
    if (told.code == WF_LOST) exit(0);
    if (told.code != WF_CODE_OK) {
        fprintf(stderr, "kiosk: %s: code %u, value %u\n", what, (unsigned)told.code, (unsigned)told.value);
        exit(1);
    }
    return told.value;
}

/* Keeps what came. */
static void hear(void *of, wf_heard what) {
    word told;
    (void)of;
    bool is_app = what.client >= 1 && what.client <= APPS;
    if (what.number == WF_HEARD_LEFT) {
        if (is_app) came.has_left[what.client] = true, came.shows[what.client] = false;
    } else if (get_word(what.bytes, what.count, &told)) {
        if (is_app && told.letter == SHOW) came.shows[what.client] = true, came.streams[what.client] = (uint32_t)told.first;
        if (what.client == WF_OUTPUT && told.letter == MOVE) came.is_moved = true, came.move = told;
        if (what.client == WF_OUTPUT && told.letter == PRESS) came.is_pressed = true, came.press = told;
    }
}

static void set(uint32_t element, enum wf_element attribute, int64_t a, int64_t b, int64_t c, int64_t d) {
    need(wf_element_set(&client, device, element, attribute, (const int64_t[]){a, b, c, d}), "attribute");
}

/* Puts the app that came last into the scene alone, or leaves the scene empty. */
static void commit(void) {
    for (int i = 0; i + 1 < count; i++) wf_element_remove(&client, device, apps[i].element);
    if (count > 0) need(wf_element_insert(&client, device, apps[count - 1].element, 0), "insertion");
    need(wf_commit(&client, device, context), "commit");
}

static void forget(uint8_t app) {
    int kept = 0;
    for (int i = 0; i < count; i++) {
        if (apps[i].app == app) {
            wf_element_destroy(&client, device, apps[i].element);
            wf_source_destroy(&client, device, apps[i].source);
        } else apps[kept++] = apps[i];
    }
    count = kept;
}

/* Shows a stream of an app in the middle. Its sides are asked of the core, and not of the app. */
static void show(uint8_t app, uint32_t stream) {
    wf_told size = wf_size(&client, stream), source = wf_source_new(&client, device, context, stream);
    if (size.code != WF_CODE_OK || source.code != WF_CODE_OK) return;
    int32_t w = (int32_t)(size.value >> 16), h = (int32_t)(size.value & 0xffff);
    forget(app);
    shown own = {app, need(wf_element_new(&client, device, context), "element"), source.value, (width - w) / 2, (height - h) / 2};
    set(own.element, WF_ELEMENT_SOURCE, source.value, 0, 0, 0);
    set(own.element, WF_ELEMENT_SRC_RECT, 0, 0, w, h);
    set(own.element, WF_ELEMENT_DEST, own.x, own.y, w, h);
    apps[count++] = own;
    commit();
}

static void point(int32_t x, int32_t y) {
    if (!has_pointer) return;
    wf_pipe_set(&client, PIPE, WF_PIPE_DEST, (const int64_t[]){x, y, POINTER, POINTER});
    wf_commit_pipe(&client, PIPE);
}

static void open_pointer(void) {
    has_pointer = wf_pipe_get(&client, PIPE, WF_PIPE_PORT, 0).code == WF_CODE_OK;
    if (!has_pointer) return;
    uint32_t stream = need(wf_stream_new(&client, POINTER, POINTER, WF_FORMAT_RGBA8_PRE, 2), "stream");
    need(wf_acquire(&client, stream), "canvas");
    for (int y = 0; y < POINTER; y++) {
        int below = 2 * (POINTER - y);
        wf_rectangle(&client, 0, y, y + 1 < below ? y + 1 : below, 1, 255, 255, 255, 255);
    }
    need(wf_post(&client), "post");
    uint32_t source = need(wf_display_source(&client, PIPE, stream), "source");
    need(wf_pipe_set(&client, PIPE, WF_PIPE_SRC_RECT, (const int64_t[]){0, 0, POINTER, POINTER}), "part");
    need(wf_pipe_set(&client, PIPE, WF_PIPE_TRANSPARENCY, (const int64_t[]){WF_SOURCE, 0, 0, 0}), "transparency");
    need(wf_pipe_set(&client, PIPE, WF_PIPE_DEST, (const int64_t[]){width / 2, height / 2, POINTER, POINTER}), "place");
    need(wf_pipe_bind_port(&client, PIPE, PORT), "port");
    need(wf_pipe_bind_source(&client, PIPE, source, WF_TRANSITION_NOW), "binding");
    need(wf_commit_device(&client), "commit");
}

static void open_screen(void) {
    device = need(wf_device_new(&client), "device");
    /* a window manager that is gone left its devices, one of which has the screen; handles count from 1 */
    for (uint32_t handle = 1; handle < device; handle++) wf_device_destroy(&client, handle);
    context = need(wf_screen_context(&client, device, PORT), "context");
    width = (int32_t)need(wf_port_get(&client, PORT, WF_PORT_WIDTH, 0), "width");
    height = (int32_t)need(wf_port_get(&client, PORT, WF_PORT_HEIGHT, 0), "height");
    need(wf_context_set(&client, device, context, WF_CONTEXT_BACKGROUND, (const int64_t[]){20, 30, 40, 255}), "background");
    need(wf_commit(&client, device, context), "commit");
    need(wf_activate(&client, device, context), "activation");
}

/* Tells the app that is shown of a press. */
static void press(word at) {
    uint8_t told[WORD];
    if (count == 0) return;
    const shown *top = &apps[count - 1];
    put_word(told, (word){PRESS, at.first - top->x, at.second - top->y, at.third});
    wf_tell(&client, top->app, told, sizeof told);
}

/* Whether something came meanwhile. */
static bool is_pending(void) {
    static const pending none; /* whose bytes are all zero, as those of `came` were made */
    return memcmp(&came, &none, sizeof none) != 0;
}

/* Does what came up to now. */
static void do_pending(void) {
    pending now = came;
    memset(&came, 0, sizeof came);
    for (uint8_t app = 1; app <= APPS; app++) {
        if (now.has_left[app]) {
            forget(app);
            commit();
        }
        if (now.shows[app]) show(app, now.streams[app]);
    }
    if (now.is_moved) point(now.move.first, now.move.second);
    if (now.is_pressed) press(now.press);
}

int main(int argc, char **argv) {
    char path[100];
    uint8_t again[WORD];
    if (argc != 2) return fprintf(stderr, "usage: kiosk DIR\n"), 2;
    snprintf(path, sizeof path, "%s/wm", argv[1]);
    if (wf_open(&client, path)) return perror(path), 1;
    client.heard = hear;
    open_screen();
    open_pointer();
    put_word(again, (word){.letter = AGAIN});
    for (uint8_t app = 1; app <= APPS; app++) wf_tell(&client, app, again, sizeof again);
    for (;;) {
        do_pending(); /* before it waits, since answers bring what others tell too */
        if (!is_pending() && wf_listen(&client)) return 0;
    }
}
