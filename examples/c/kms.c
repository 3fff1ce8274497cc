/* Shows a port on a screen without a window system: a card's first connected output, by two dumb buffers and page flips.
 *
 *     cc -Iinclude kms.c -lweklandu $(pkg-config --cflags --libs libdrm) && ./a.out [CARD [TICKS]]
 *
 * CARD is /dev/dri/card0. The port has the output's size, with sides up to 1024, and stands at the top left. Each frame is copied once.
 */
#include "weklandu.h"

#include <fcntl.h>
#include <stdio.h>
#include <stdlib.h>
#include <sys/mman.h>
#include <xf86drm.h>
#include <xf86drmMode.h>

enum { CLIENT = 0, MOST_SIDE = 1024 };

/* A buffer of the card. */
typedef struct buffer {
    uint32_t id, stride;
    size_t bytes;
    uint8_t *pixels;
} buffer;

static void fail(const char *what) {
    perror(what);
    exit(1);
}

/* The value of an answer, or the end of the program where a call was refused. */
static uint32_t need(wk_told told, const char *what) {
    if (told.code != WK_OK) {
        fprintf(stderr, "kms: %s: code %u, value %u\n", what, (unsigned)told.code, (unsigned)told.value);
        exit(1);
    }
    return told.value;
}

/* Makes a buffer of the card's, whose pixels are words of X R G B. */
static buffer make_buffer(int card, uint32_t w, uint32_t h) {
    struct drm_mode_create_dumb made = {.width = w, .height = h, .bpp = 32};
    struct drm_mode_map_dumb map = {0};
    buffer b;
    if (drmIoctl(card, DRM_IOCTL_MODE_CREATE_DUMB, &made)) fail("a buffer");
    b.stride = made.pitch;
    b.bytes = made.size;
    if (drmModeAddFB(card, w, h, 24, 32, made.pitch, made.handle, &b.id)) fail("a framebuffer");
    map.handle = made.handle;
    if (drmIoctl(card, DRM_IOCTL_MODE_MAP_DUMB, &map)) fail("a buffer's place");
    b.pixels = mmap(NULL, b.bytes, PROT_READ | PROT_WRITE, MAP_SHARED, card, (off_t)map.offset);
    if (b.pixels == MAP_FAILED) fail("a buffer's memory");
    return b;
}

/* The first connected output. */
static drmModeConnector *connected(int card, drmModeRes *resources) {
    for (int i = 0; i < resources->count_connectors; i++) {
        drmModeConnector *found = drmModeGetConnector(card, resources->connectors[i]);
        if (found && found->connection == DRM_MODE_CONNECTED && found->count_modes > 0) return found;
        drmModeFreeConnector(found);
    }
    fprintf(stderr, "kms: no output is connected\n");
    exit(1);
}

/* Shows a window that moves on the port, and returns its element. */
static uint32_t open_desk(wk_machine *m, uint32_t device, uint32_t screen) {
    static uint8_t pixels[4 * 200 * 150];
    for (size_t i = 0; i < sizeof pixels; i++) pixels[i] = (uint8_t)(i % 4 == 3 ? 255 : i / 800 + 60 * (i % 4));
    uint32_t stream = need(wk_stream_new(m, CLIENT, 200, 150, WK_FORMAT_RGBX8, 2), "stream");
    need(wk_submit(m, CLIENT, stream, pixels, sizeof pixels, 800), "submit");
    uint32_t element = need(wk_element_new(m, CLIENT, device, screen), "element");
    const int64_t source[4] = {need(wk_source_new(m, CLIENT, device, screen, stream), "source")}, from[4] = {0, 0, 200, 150};
    need(wk_element_set(m, CLIENT, device, element, WK_ELEMENT_SOURCE, source), "source of an element");
    need(wk_element_set(m, CLIENT, device, element, WK_ELEMENT_SRC_RECT, from), "rectangle of a source");
    need(wk_element_set(m, CLIENT, device, element, WK_ELEMENT_DEST, from), "place");
    need(wk_element_insert(m, CLIENT, device, element, 0), "insertion");
    return element;
}

/* One tick: a frame of each active context, and one of the port, copied into a buffer of the card. */
static void tick(wk_machine *m, wk_frame *frame, const buffer *b) {
    for (uint32_t context = 0;;) {
        context = need(wk_begin_next(m, frame, CLIENT, context), "frame of a context");
        if (context == 0) break;
        need(wk_end(m, frame, CLIENT), "end of a frame");
    }
    need(wk_begin_port(m, frame, CLIENT, 1), "frame of the port");
    if (wk_read_frame(frame, b->pixels, b->bytes, b->stride, WK_BGRA) != WK_OK) fail("the picture");
    need(wk_end(m, frame, CLIENT), "end of the port's frame");
}

/* The flip is done: the next tick may begin. */
static void flipped(int fd, unsigned number, unsigned seconds, unsigned parts, void *waits) {
    (void)fd, (void)number, (void)seconds, (void)parts;
    *(int *)waits = 0;
}

int main(int argc, char **argv) {
    int card = open(argc > 1 ? argv[1] : "/dev/dri/card0", O_RDWR);
    if (card < 0) fail("the card");
    drmModeRes *resources = drmModeGetResources(card);
    if (!resources || resources->count_crtcs == 0) fail("what the card has");
    drmModeConnector *output = connected(card, resources);
    drmModeModeInfo size = output->modes[0];
    uint32_t crtc = resources->crtcs[0];
    const buffer buffers[2] = {make_buffer(card, size.hdisplay, size.vdisplay), make_buffer(card, size.hdisplay, size.vdisplay)};
    const wk_mode mode = {1, size.hdisplay < MOST_SIDE ? size.hdisplay : MOST_SIDE, size.vdisplay < MOST_SIDE ? size.vdisplay : MOST_SIDE};
    wk_machine m = {0};
    wk_frame frame = {0};
    if (wk_open(&m, 1, &mode, 1, 0) != WK_OK || wk_frame_open(&frame) != WK_OK) return 1;
    uint32_t device = need(wk_device_new(&m, CLIENT), "device"), screen = need(wk_screen_context(&m, CLIENT, device, 1), "context");
    uint32_t element = open_desk(&m, device, screen);
    need(wk_activate(&m, CLIENT, device, screen), "activation");
    if (drmModeSetCrtc(card, crtc, buffers[0].id, 0, 0, &output->connector_id, 1, &size)) fail("the mode");
    for (long n = 0, ticks = argc > 2 ? atol(argv[2]) : 0; ticks == 0 || n < ticks; n++) {
        int waits = 1;
        drmEventContext events = {.version = 2, .page_flip_handler = flipped};
        const buffer *next = &buffers[(n + 1) % 2];
        const int64_t dest[4] = {4 * n % mode.w, 2 * n % mode.h, 200, 150};
        need(wk_element_set(&m, CLIENT, device, element, WK_ELEMENT_DEST, dest), "place");
        need(wk_commit(&m, CLIENT, device, screen), "commit");
        tick(&m, &frame, next);
        if (drmModePageFlip(card, crtc, next->id, DRM_MODE_PAGE_FLIP_EVENT, &waits)) fail("a flip");
        while (waits) drmHandleEvent(card, &events);
    }
    wk_frame_close(&frame);
    wk_machine_close(&m);
    return 0;
}
