/* The output on a card, without a window system: two dumb buffers, and a flip whose event is the next tick.
 *
 *     cc -O2 $(pkg-config --cflags libdrm) -o wfkms wfkms.c && ./wfkms DIR [CARD [FRAMES [PORT [DEVICE ..]]]]
 *
 * DIR has the sockets of the broker, CARD is /dev/dri/card0, FRAMES and PORT are as of wfview. It takes the first output with a screen, in
 * its best mode, and shows a frame in the middle. It needs the kernel's headers of DRM and no library, and must be the only one that has
 * the card. With a DIR of `-` it shows a pattern of its own, with no broker. DEVICEs are those of pointer, panel and keys, as
 * /dev/input/event0; a key has the number that Linux gives it.
 */
#define _GNU_SOURCE
#include "events.h"

#include <drm.h>
#include <drm_mode.h>
#include <poll.h>
#include <sys/ioctl.h>
#include <sys/mman.h>

enum { MOST_OBJECTS = 32, MOST_MODES = 128, CONNECTED = 1, XRGB8888 = 0x34325258, PATTERN = 240 };

/* A buffer of the card: the number by which it is shown, the bytes of a row, where its pixels are, and the rows of the last picture that it
 * may have otherwise, from `first` up to `end`. */
typedef struct buffer { uint32_t id, stride; uint8_t *pixels; int first, end; } buffer;

static int card;
static uint32_t crtc, connector;
static struct drm_mode_modeinfo mode;
static buffer buffers[2];
static output own;
static events inputs;
static int shown_w, shown_h;

static void die(const char *what) {
    fprintf(stderr, "wfkms: %s: %s\n", what, strerror(errno));
    exit(1);
}

/* Asks the card, again where a signal came between. */
static void ask(unsigned long number, void *argument, const char *what) {
    while (ioctl(card, number, argument))
        if (errno != EINTR && errno != EAGAIN) die(what);
}

/* Takes a controller that one of these encoders can use. False where there is none. */
static bool find_crtc(const uint32_t *encoders, uint32_t count, const uint32_t *crtcs, uint32_t crtc_count) {
    for (uint32_t i = 0; i < count; i++) {
        struct drm_mode_get_encoder e = {.encoder_id = encoders[i]};
        ask(DRM_IOCTL_MODE_GETENCODER, &e, "an encoder");
        for (uint32_t k = 0; k < crtc_count; k++) {
            if ((e.possible_crtcs & 1u << k) == 0) continue;
            crtc = crtcs[k];
            return true;
        }
    }
    return false;
}

/* Takes a connector where it has a screen and a controller. False where it has not. */
static bool try_connector(uint32_t id, const uint32_t *crtcs, uint32_t crtc_count) {
    static struct drm_mode_modeinfo modes[MOST_MODES];
    uint32_t encoders[MOST_OBJECTS];
    struct drm_mode_get_connector c = {.connector_id = id};
    ask(DRM_IOCTL_MODE_GETCONNECTOR, &c, "a connector"); /* with room for nothing it looks for a screen, and counts */
    if (c.connection != CONNECTED || c.count_modes == 0 || c.count_modes > MOST_MODES || c.count_encoders > MOST_OBJECTS) return false;
    c = (struct drm_mode_get_connector){.connector_id = id, .modes_ptr = (uintptr_t)modes, .count_modes = c.count_modes,
        .encoders_ptr = (uintptr_t)encoders, .count_encoders = c.count_encoders};
    ask(DRM_IOCTL_MODE_GETCONNECTOR, &c, "a connector");
    if (c.count_modes == 0 || c.count_encoders > MOST_OBJECTS || !find_crtc(encoders, c.count_encoders, crtcs, crtc_count)) return false;
    connector = id;
    mode = modes[0];
    return true;
}

static void find_screen(void) {
    uint32_t connectors[MOST_OBJECTS], crtcs[MOST_OBJECTS], encoders[MOST_OBJECTS], buffers_of_others[MOST_OBJECTS];
    struct drm_mode_card_res r = {.fb_id_ptr = (uintptr_t)buffers_of_others, .count_fbs = MOST_OBJECTS, .crtc_id_ptr = (uintptr_t)crtcs,
        .count_crtcs = MOST_OBJECTS, .connector_id_ptr = (uintptr_t)connectors, .count_connectors = MOST_OBJECTS,
        .encoder_id_ptr = (uintptr_t)encoders, .count_encoders = MOST_OBJECTS};
    ask(DRM_IOCTL_MODE_GETRESOURCES, &r, "what the card has");
    /* where there are more of a kind than there is room for, the card counts them and tells none */
    uint32_t crtc_count = r.count_crtcs > MOST_OBJECTS ? 0 : r.count_crtcs;
    uint32_t count = r.count_connectors > MOST_OBJECTS ? 0 : r.count_connectors;
    for (uint32_t i = 0; i < count; i++)
        if (try_connector(connectors[i], crtcs, crtc_count)) return;
    fprintf(stderr, "wfkms: no output has a screen\n");
    exit(1);
}

static buffer make_buffer(void) {
    struct drm_mode_create_dumb made = {.width = mode.hdisplay, .height = mode.vdisplay, .bpp = 32};
    ask(DRM_IOCTL_MODE_CREATE_DUMB, &made, "a buffer");
    struct drm_mode_fb_cmd2 shown = {.width = mode.hdisplay, .height = mode.vdisplay, .pixel_format = XRGB8888, .handles = {made.handle},
        .pitches = {made.pitch}};
    ask(DRM_IOCTL_MODE_ADDFB2, &shown, "a framebuffer");
    struct drm_mode_map_dumb map = {.handle = made.handle};
    ask(DRM_IOCTL_MODE_MAP_DUMB, &map, "a buffer's place");
    uint8_t *pixels = mmap(NULL, made.size, PROT_READ | PROT_WRITE, MAP_SHARED, card, (off_t)map.offset);
    if (pixels == MAP_FAILED) die("a buffer's memory");
    memset(pixels, 0, made.size);
    return (buffer){.id = shown.fb_id, .stride = made.pitch, .pixels = pixels};
}

/* Notes of both buffers that rows of a frame are others now. */
static void note(const shown *frame) {
    int first = frame->first, end = first + frame->rows;
    for (buffer *b = buffers; b < buffers + 2; b++) {
        bool has_noted = b->first < b->end;
        if (!has_noted || first < b->first) b->first = first;
        if (!has_noted || end > b->end) b->end = end;
    }
}

/* Copies the rows of a frame that were noted into the middle of a buffer. What is larger than the screen is cut at the right and below. */
static void draw(buffer *b, const shown *frame) {
    int columns = frame->w < mode.hdisplay ? frame->w : mode.hdisplay, rows = frame->h < mode.vdisplay ? frame->h : mode.vdisplay;
    size_t left = (size_t)(mode.hdisplay - columns) / 2, top = (size_t)(mode.vdisplay - rows) / 2;
    copy_rows(frame, b->pixels + top * b->stride + 4 * left, b->stride, columns, b->first, b->end < rows ? b->end : rows);
    b->first = b->end = 0;
}

/* Draws a pattern that moves. */
static void draw_pattern(buffer *b, long number) {
    static uint8_t pixels[4 * PATTERN * PATTERN];
    for (size_t i = 0; i < PATTERN * PATTERN; i++) {
        pixels[4 * i] = (uint8_t)(i + (size_t)number);
        pixels[4 * i + 1] = (uint8_t)(i / PATTERN);
        pixels[4 * i + 2] = 128;
    }
    shown frame = {.w = PATTERN, .h = PATTERN, .rows = PATTERN, .pixels = pixels};
    note(&frame);
    draw(b, &frame);
}

/* Ticks, and draws the frame of a port, if one came. False where the broker is gone. */
static bool draw_tick(buffer *b, int port, bool *is_drawn) {
    *is_drawn = false;
    take_inputs(&inputs, shown_w, shown_h, &own);
    tick(&own);
    while (own.is_owed) {
        struct pollfd w[] = {{own.sock, (short)(POLLIN | (held(&own.to) ? POLLOUT : 0)), 0}, {own.frames, POLLIN, 0}};
        if (poll(w, 2, -1) < 0 && errno != EINTR) die("poll");
        if (!serve(&own, w[0].revents, w[1].revents)) return false;
    }
    for (shown frame; get_frame(&own, &frame);)
        if (frame.port == port) {
            note(&frame);
            draw(b, &frame);
            *is_drawn = true;
            shown_w = frame.w;
            shown_h = frame.h;
        }
    return true;
}

/* Shows a buffer from the next blank on, and waits for that. */
static void flip(const buffer *b) {
    struct drm_mode_crtc_page_flip asked = {.crtc_id = crtc, .fb_id = b->id, .flags = DRM_MODE_PAGE_FLIP_EVENT};
    char event[256];
    ask(DRM_IOCTL_MODE_PAGE_FLIP, &asked, "a flip");
    while (read(card, event, sizeof event) <= 0)
        if (errno != EINTR) die("the event of a flip");
}

int main(int argc, char **argv) {
    if (argc < 2) return fprintf(stderr, "usage: wfkms DIR [CARD [FRAMES [PORT [DEVICE ..]]]]\n"), 2;
    const char *name = argc > 2 ? argv[2] : "/dev/dri/card0";
    long most = argc > 3 ? atol(argv[3]) : 0, count = 0;
    int port = argc > 4 ? atoi(argv[4]) : 1;
    bool is_pattern = strcmp(argv[1], "-") == 0;
    if ((card = open(name, O_RDWR | O_CLOEXEC)) < 0) die(name);
    find_screen();
    for (int i = 0; i < 2; i++) buffers[i] = make_buffer();
    struct drm_mode_crtc set = {.crtc_id = crtc, .fb_id = buffers[0].id, .set_connectors_ptr = (uintptr_t)&connector, .count_connectors = 1,
        .mode = mode, .mode_valid = 1};
    ask(DRM_IOCTL_MODE_SETCRTC, &set, "the mode");
    fprintf(stderr, "wfkms: connector %u, mode %s, %u a second\n", connector, mode.name, mode.vrefresh);
    if (!is_pattern && open_output(&own, argv[1])) die(argv[1]);
    if (argc > 5 && open_events(&inputs, argv + 5, argc - 5)) die("a device");
    double begun = seconds();
    bool is_drawn = true;
    for (int front = 0; most == 0 || count < most; count++) {
        if (is_pattern) draw_pattern(&buffers[1 - front], count);
        else if (!draw_tick(&buffers[1 - front], port, &is_drawn)) break;
        if (is_drawn) front = 1 - front;
        flip(&buffers[front]); /* without a new frame the same once more, so that the next tick waits for the blank */
    }
    double took = seconds() - begun;
    fprintf(stderr, "wfkms: %ld ticks in %.2f s, %.1f a second\n", count, took, (double)count / took);
    return 0;
}
