/* What shows frames, for the programs that stand for the output: a connection to the broker, and the pipe from which frames come. */
#ifndef OUTPUT_H
#define OUTPUT_H

#include "queue.h"
#include "words.h"

#include <fcntl.h>
#include <signal.h>
#include <stdio.h>
#include <sys/socket.h>
#include <sys/un.h>

enum { OUTPUT = 8, FRAME_HEAD = 10, BAND_HEAD = 14, MOST_PORTS = 4, TICK = 51, TELL = 53 };

/* A picture of a port: its sides, its pixels in rows from the top, of the bytes R, G, B and A, and the rows that may be others than in the
 * port's picture before it, `rows` from `first` on. */
typedef struct shown { int port, w, h, first, rows; uint8_t *pixels; } shown;

/* The output: the socket, what goes and comes there, the frames' pipe, what came of it, whether the answer to a tick is owed, and the last
 * picture of each port, without pixels where there is none. */
typedef struct output { int sock, frames; queue to, from, pixels; bool is_owed; shown last[MOST_PORTS]; } output;

/* Tells itself nothing, and waits until that is answered: from then on it is the output, and what one before it left in the pipe is gone.
 * Returns 0, or -1 with errno. */
static inline int become_output(output *own) {
    add_head(&own->to, 1 + 8, TELL);
    add(&own->to, (const uint8_t[]){0, 0, 0, 0, 0, 0, 0, OUTPUT}, 8);
    if (!flush(own->sock, &own->to)) return -1;
    for (bool is_answered = false; !is_answered;) {
        if (!fill(own->sock, &own->from)) return errno = ECONNRESET, -1;
        while (held(&own->from) > LENGTH && held(&own->from) >= LENGTH + length_at(&own->from)) {
            is_answered = own->from.at[own->from.from + LENGTH] == TELL;
            take(&own->from, LENGTH + length_at(&own->from));
        }
    }
    return 0;
}

/* Connects in the folder `where`, and waits until it is the output. Returns 0, or -1 with errno. */
static inline int open_output(output *own, const char *where) {
    struct sockaddr_un address = {.sun_family = AF_UNIX};
    char path[sizeof address.sun_path + 8];
    signal(SIGPIPE, SIG_IGN); /* a broker that is gone shows by what write answers */
    *own = (output){.sock = socket(AF_UNIX, SOCK_STREAM | SOCK_CLOEXEC, 0)};
    size_t length = (size_t)snprintf(address.sun_path, sizeof address.sun_path, "%s/out", where);
    if (length >= sizeof address.sun_path) return errno = ENAMETOOLONG, -1;
    if (own->sock < 0 || connect(own->sock, (struct sockaddr *)&address, sizeof address) || become_output(own)) return -1;
    snprintf(path, sizeof path, "%s/frames", where);
    own->frames = open(path, O_RDONLY | O_NONBLOCK | O_CLOEXEC);
    return own->frames < 0 || fcntl(own->sock, F_SETFL, O_NONBLOCK) ? -1 : 0;
}

/* Asks for a tick, whose answer is owed from then on. */
static inline void tick(output *own) {
    add_head(&own->to, 1, TICK);
    own->is_owed = true;
}

/* Tells the window manager a word. */
static inline void tell(output *own, word told) {
    uint8_t behind[8 + WORD] = {0}; /* the window manager is client 0 */
    put_word(behind + 8, told);
    add_head(&own->to, 1 + sizeof behind, TELL);
    add(&own->to, behind, sizeof behind);
}

/* Takes the answers that came. What others tell the output is nothing to it. */
static inline void take_answers(output *own) {
    while (held(&own->from) >= LENGTH && held(&own->from) >= LENGTH + length_at(&own->from)) {
        if (own->from.at[own->from.from + LENGTH] == TICK) own->is_owed = false;
        take(&own->from, LENGTH + length_at(&own->from));
    }
}

/* Ends the program where what comes is no picture: another output gets each port whole. */
static inline void need(bool holds) {
    if (holds) return;
    fprintf(stderr, "the frames are none\n");
    exit(1);
}

/* Takes a frame or a band that is whole, and pastes it onto the last picture of its port, which then is the `frame`, until the next one of
 * the port. False where none is whole. */
static inline bool get_frame(output *own, shown *frame) {
    const uint8_t *b = own->pixels.at + own->pixels.from;
    if (held(&own->pixels) < BAND_HEAD) return false; /* a frame of one pixel is as long */
    bool is_band = b[0] == 'B';
    shown came = {.port = b[1], .w = b[6] << 8 | b[7], .h = b[8] << 8 | b[9]};
    came.first = is_band ? b[10] << 8 | b[11] : 0;
    came.rows = is_band ? b[12] << 8 | b[13] : came.h;
    need((is_band || b[0] == 'F') && came.port >= 1 && came.port <= MOST_PORTS);
    need(came.w >= 1 && came.rows >= 1 && came.first + came.rows <= came.h);
    size_t head = is_band ? BAND_HEAD : FRAME_HEAD, row = (size_t)came.w * 4, count = row * (size_t)came.rows;
    if (held(&own->pixels) < head + count) return false;
    shown *last = &own->last[came.port - 1];
    bool has_room = last->pixels && last->w == came.w && last->h == came.h;
    need(has_room || !is_band);
    came.pixels = has_room ? last->pixels : realloc(last->pixels, count);
    if (!came.pixels) abort();
    memcpy(came.pixels + row * (size_t)came.first, b + head, count);
    take(&own->pixels, head + count);
    *frame = *last = came;
    return true;
}

/* Reads and writes what can be: `socket_events` and `frame_events` are what `poll` told. False where the broker is gone. Frames are read to
 * the end of what is there, since the core put all of a tick's before it answered. */
static inline bool serve(output *own, short socket_events, short frame_events) {
    size_t before;
    if (socket_events && !fill(own->sock, &own->from)) return false;
    take_answers(own);
    if (frame_events || !own->is_owed) {
        do before = held(&own->pixels);
        while (fill(own->frames, &own->pixels) && held(&own->pixels) > before);
    }
    return flush(own->sock, &own->to);
}

/* Copies rows of a frame, from `first` up to `end`, to their places in words of X R G B, `stride` bytes apart: `columns` pixels of each. */
static inline void copy_rows(const shown *frame, uint8_t *to, size_t stride, int columns, int first, int end) {
    for (int y = first; y < end; y++) {
        const uint8_t *from = frame->pixels + (size_t)y * (size_t)frame->w * 4;
        uint32_t *words = (uint32_t *)(void *)(to + (size_t)y * stride);
        for (int x = 0; x < columns; x++, from += 4) words[x] = (uint32_t)from[0] << 16 | (uint32_t)from[1] << 8 | from[2];
    }
}

#endif
