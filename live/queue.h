/* Bytes that wait on their way from one descriptor to another, and a clock, for the programs of this folder. */
#ifndef QUEUE_H
#define QUEUE_H

#include <errno.h>
#include <stdbool.h>
#include <stddef.h>
#include <stdint.h>
#include <stdlib.h>
#include <string.h>
#include <time.h>
#include <unistd.h>

/* The bytes that are read at once. */
enum { PIECE = 64 * 1024 };
/* The bytes of a length, and of it with the number of a client. */
enum { LENGTH = 4, HEAD = 5 };

/* Bytes that wait: those at `at` from `from` up to `to`, of `room` that there are. */
typedef struct queue { uint8_t *at; size_t from, to, room; } queue;

/* Returns the seconds of a clock that is never set. */
static inline double seconds(void) {
    struct timespec t;
    clock_gettime(CLOCK_MONOTONIC, &t);
    return (double)t.tv_sec + (double)t.tv_nsec / 1e9;
}

static inline size_t held(const queue *q) { return q->to - q->from; }

/* Returns where `count` bytes more can be written at the end of a queue. */
static inline uint8_t *room_for(queue *q, size_t count) {
    if (q->room - q->to < count && q->from > 0) {
        memmove(q->at, q->at + q->from, held(q));
        q->to -= q->from;
        q->from = 0;
    }
    if (q->room - q->to < count) {
        q->room = q->to + count + q->to / 2;
        q->at = realloc(q->at, q->room);
        if (!q->at) abort(); /* no program of this folder can go on without */
    }
    return q->at + q->to;
}

static inline void add(queue *q, const void *bytes, size_t count) {
    memcpy(room_for(q, count), bytes, count);
    q->to += count;
}

/* Takes `count` bytes out at the front of a queue, whose memory goes back where it was much and is not needed. */
static inline void take(queue *q, size_t count) {
    q->from += count;
    if (q->from < q->to) return;
    q->from = q->to = 0;
    if (q->room > 16 * PIECE) {
        free(q->at);
        *q = (queue){0};
    }
}

/* Returns the length that stands at the front of a queue. */
static inline size_t length_at(const queue *q) {
    const uint8_t *b = q->at + q->from;
    return (size_t)b[0] << 24 | (size_t)b[1] << 16 | (size_t)b[2] << 8 | b[3];
}

/* Adds the head of a frame of `count` bytes behind its length: the length alone, or with a client. */
static inline void add_head(queue *q, size_t count, int client) {
    uint8_t head[HEAD] = {(uint8_t)(count >> 24), (uint8_t)(count >> 16), (uint8_t)(count >> 8), (uint8_t)count, (uint8_t)client};
    add(q, head, client < 0 ? LENGTH : HEAD);
}

/* Writes what is taken of a queue. False where the other end is gone. */
static inline bool flush(int fd, queue *q) {
    while (held(q) > 0) {
        ssize_t count = write(fd, q->at + q->from, held(q));
        if (count < 0) return errno == EAGAIN || errno == EINTR;
        take(q, (size_t)count);
    }
    return true;
}

/* Reads what is there, up to a piece. False where the other end is gone. */
static inline bool fill(int fd, queue *q) {
    ssize_t count = read(fd, room_for(q, PIECE), PIECE);
    if (count > 0) q->to += (size_t)count;
    return count > 0 || (count < 0 && (errno == EAGAIN || errno == EINTR));
}

#endif
