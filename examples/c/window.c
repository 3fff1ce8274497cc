/* Shows a port in a window: a desk with two windows that move and a pointer that follows the mouse.
 *
 *     cc -Iinclude window.c -lweklandu $(sdl2-config --cflags --libs) && ./a.out
 *
 * With a number it ends after as many ticks.
 */
#include "weklandu.h"

#include <SDL.h>
#include <stdio.h>
#include <stdlib.h>

enum { W = 800, H = 480, CLIENT = 0 };

static wk_machine machine;
static wk_frame frame;
static uint32_t device, screen;

/* The value of an answer, or the end of the program where a call was refused. */
static uint32_t need(wk_told told, const char *what) {
    if (told.code != WK_OK) {
        fprintf(stderr, "window: %s: code %u, value %u\n", what, (unsigned)told.code, (unsigned)told.value);
        exit(1);
    }
    return told.value;
}

/* Paints a surface of a kind of its own into a stream of this size: 0 a ground, 1 and 2 windows with a bar, 3 an arrow. */
static void draw(uint32_t stream, uint32_t w, uint32_t h, int kind) {
    uint8_t *pixels = calloc((size_t)w * h, 4);
    if (!pixels) exit(1);
    for (uint32_t y = 0; y < h; y++) {
        for (uint32_t x = 0; x < w; x++) {
            uint8_t *p = pixels + 4 * ((size_t)y * w + x), bar = y < 20 ? 60 : 0;
            uint8_t is_arrow = x <= y && x + y < h;
            uint8_t shades[4][4] = {{30, (uint8_t)(60 + y / 8), 90, 255},
                                    {(uint8_t)(200 - bar), 120, 60, 230},
                                    {60, (uint8_t)(180 - bar), 120, 230},
                                    {255, 255, 255, (uint8_t)(is_arrow ? 255 : 0)}};
            for (int i = 0; i < 4; i++) p[i] = shades[kind][i];
        }
    }
    need(wk_submit(&machine, CLIENT, stream, pixels, (size_t)w * h * 4, (size_t)w * 4), "submit");
    free(pixels);
}

static void place(uint32_t element, int64_t x, int64_t y, int64_t w, int64_t h) {
    const int64_t dest[4] = {x, y, w, h};
    need(wk_element_set(&machine, CLIENT, device, element, WK_ELEMENT_DEST, dest), "place");
}

/* An element of a stream of this size that it makes and paints, above `below`. */
static uint32_t layer(uint32_t w, uint32_t h, int kind, uint32_t below) {
    uint32_t stream = need(wk_stream_new(&machine, CLIENT, w, h, WK_FORMAT_RGBA8, 3), "stream");
    draw(stream, w, h, kind);
    uint32_t element = need(wk_element_new(&machine, CLIENT, device, screen), "element");
    const int64_t source[4] = {need(wk_source_new(&machine, CLIENT, device, screen, stream), "source")};
    const int64_t from[4] = {0, 0, w, h}, by_alpha[4] = {WK_SOURCE};
    need(wk_element_set(&machine, CLIENT, device, element, WK_ELEMENT_SOURCE, source), "source of an element");
    need(wk_element_set(&machine, CLIENT, device, element, WK_ELEMENT_SRC_RECT, from), "rectangle of a source");
    need(wk_element_set(&machine, CLIENT, device, element, WK_ELEMENT_TRANSPARENCY, by_alpha), "transparency");
    place(element, 0, 0, w, h);
    need(wk_element_insert(&machine, CLIENT, device, element, below), "insertion");
    return element;
}

/* One tick: a frame of each active context, and one of the port, whose picture goes into `out`. */
static void tick(uint8_t *out, size_t bytes, size_t stride) {
    for (uint32_t context = 0;;) {
        context = need(wk_begin_next(&machine, &frame, CLIENT, context), "frame of a context");
        if (context == 0) break;
        need(wk_end(&machine, &frame, CLIENT), "end of a frame");
    }
    need(wk_begin_port(&machine, &frame, CLIENT, 1), "frame of the port");
    if (wk_read_frame(&frame, out, bytes, stride, WK_BGRA) != WK_OK) exit(1);
    need(wk_end(&machine, &frame, CLIENT), "end of the port's frame");
}

/* Shows the desk until the window is closed, or for as many ticks. */
static void run(SDL_Renderer *renderer, SDL_Texture *texture, long ticks) {
    uint32_t ground = layer(W, H, 0, 0), one = layer(240, 160, 1, ground), two = layer(200, 200, 2, one);
    uint32_t pointer = layer(16, 24, 3, two);
    need(wk_activate(&machine, CLIENT, device, screen), "activation");
    for (long n = 0; ticks == 0 || n < ticks; n++) {
        int x, y, stride;
        void *out;
        SDL_Event event;
        while (SDL_PollEvent(&event)) {
            if (event.type == SDL_QUIT) return;
        }
        SDL_GetMouseState(&x, &y);
        place(one, n % (W + 240) - 240, 60, 240, 160);
        place(two, 300, n % (H + 200) - 200, 200, 200);
        place(pointer, x, y, 16, 24);
        need(wk_commit(&machine, CLIENT, device, screen), "commit");
        if (SDL_LockTexture(texture, NULL, &out, &stride)) exit(1);
        tick(out, (size_t)stride * H, (size_t)stride);
        SDL_UnlockTexture(texture);
        SDL_RenderCopy(renderer, texture, NULL, NULL);
        SDL_RenderPresent(renderer);
    }
}

int main(int argc, char **argv) {
    const wk_mode mode = {1, W, H};
    if (wk_open(&machine, 1, &mode, 1, 0) != WK_OK || wk_frame_open(&frame) != WK_OK) return 1;
    device = need(wk_device_new(&machine, CLIENT), "device");
    screen = need(wk_screen_context(&machine, CLIENT, device, 1), "context of the port");
    if (SDL_Init(SDL_INIT_VIDEO)) return 1;
    SDL_Window *window = SDL_CreateWindow("weklandu", SDL_WINDOWPOS_CENTERED, SDL_WINDOWPOS_CENTERED, W, H, 0);
    SDL_Renderer *renderer = SDL_CreateRenderer(window, -1, SDL_RENDERER_PRESENTVSYNC);
    if (!renderer) renderer = SDL_CreateRenderer(window, -1, SDL_RENDERER_SOFTWARE);
    SDL_Texture *texture = SDL_CreateTexture(renderer, SDL_PIXELFORMAT_ARGB8888, SDL_TEXTUREACCESS_STREAMING, W, H);
    if (!texture) {
        fprintf(stderr, "window: %s\n", SDL_GetError());
        return 1;
    }
    run(renderer, texture, argc > 1 ? atol(argv[1]) : 0);
    SDL_Quit();
    wk_frame_close(&frame);
    wk_machine_close(&machine);
    return 0;
}
