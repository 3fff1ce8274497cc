/* A client of the live system in C, by docs/live.md: one socket of the broker, and a function for each message.
 *
 *     wf_client client;
 *     if (wf_open(&client, "/run/wf/app")) return 1;
 *     wf_told stream = wf_stream_new(&client, 64, 48, WF_FORMAT_RGBX8, 3);
 *
 * A function sends its message and waits for the answer. Between wf_begin and wf_end it does not wait: it answers 0 and 0 at once, and
 * wf_end waits for all and tells the first that was refused. What others tell goes to `heard`, where the client has one, which sends
 * nothing itself. No function allocates. Where the broker is gone, the code is WF_LOST. One client is used by one thread.
 */
#ifndef WFCLIENT_H
#define WFCLIENT_H

#include <errno.h>
#include <stdbool.h>
#include <stddef.h>
#include <stdint.h>
#include <string.h>
#include <sys/socket.h>
#include <sys/uio.h>
#include <sys/un.h>
#include <unistd.h>

/* What a message is answered: an enum wf_code, and a value. */
typedef struct wf_told { uint8_t code; uint32_t value; } wf_told;

/* What comes unasked: number WF_HEARD_TOLD with the client that tells and its bytes, or WF_HEARD_LEFT with the client that is gone. */
typedef struct wf_heard { uint8_t number; uint32_t client; const uint8_t *bytes; size_t count; } wf_heard;

enum { WF_HEARD_TOLD = 55, WF_HEARD_LEFT = 56, WF_OK = 0, WF_LOST = 254 };
enum { WF_MANAGER = 0, WF_OUTPUT = 8, WF_MOST_TOLD = 4096, WF_MOST_OWED = 256, WF_ANSWER = 10, WF_MOST_ARGUMENTS = 9 };

/* A connection: its socket, whether answers are awaited later and how many are owed, the first of them that was refused, and who hears what
 * comes unasked. */
typedef struct wf_client {
    int sock;
    bool is_later;
    unsigned owed;
    wf_told first;
    void (*heard)(void *of, wf_heard what);
    void *of;
} wf_client;

/* Connects to the socket at a path. Returns 0, or -1 with errno. */
static inline int wf_open(wf_client *client, const char *path) {
    struct sockaddr_un address = {.sun_family = AF_UNIX};
    *client = (wf_client){.sock = socket(AF_UNIX, SOCK_STREAM | SOCK_CLOEXEC, 0)};
    if (strlen(path) >= sizeof address.sun_path) return errno = ENAMETOOLONG, -1;
    strcpy(address.sun_path, path);
    return client->sock < 0 ? -1 : connect(client->sock, (struct sockaddr *)&address, sizeof address);
}

static inline void wf_close(wf_client *client) { close(client->sock); }

/* Reads just `count` bytes. Returns 0, or -1 where there are no more. */
static inline int wf_read(wf_client *client, void *to, size_t count) {
    for (uint8_t *at = to; count > 0;) {
        ssize_t done = read(client->sock, at, count);
        if (done < 0 && errno == EINTR) continue;
        if (done <= 0) return -1;
        at += done;
        count -= (size_t)done;
    }
    return 0;
}

/* Writes all bytes of some pieces. Returns 0, or -1 where nobody takes them. A signal for that is not raised. */
static inline int wf_write(wf_client *client, struct iovec *pieces, size_t count) {
    while (count > 0) {
        struct msghdr message = {.msg_iov = pieces, .msg_iovlen = count};
        ssize_t done = sendmsg(client->sock, &message, MSG_NOSIGNAL);
        if (done < 0 && errno == EINTR) continue;
        if (done < 0) return -1;
        while (count > 0 && (size_t)done >= pieces->iov_len) done -= (ssize_t)pieces->iov_len, pieces++, count--;
        if (count > 0) pieces->iov_base = (uint8_t *)pieces->iov_base + done, pieces->iov_len -= (size_t)done;
    }
    return 0;
}

static inline uint32_t wf_number(const uint8_t *b) { return (uint32_t)b[0] << 24 | (uint32_t)b[1] << 16 | (uint32_t)b[2] << 8 | b[3]; }

static inline void wf_put_number(uint8_t *b, uint64_t number, int count) {
    for (int i = 0; i < count; i++) b[i] = (uint8_t)(number >> 8 * (count - 1 - i));
}

/* Sends a message: its number, its arguments, and bytes behind them. */
static inline int wf_send(wf_client *client, uint8_t number, const int64_t *arguments, size_t count, const void *bytes, size_t length) {
    uint8_t head[5 + 8 * WF_MOST_ARGUMENTS] = {[4] = number};
    wf_put_number(head, 1 + 8 * count + length, 4);
    for (size_t i = 0; i < count; i++) wf_put_number(head + 5 + 8 * i, (uint64_t)arguments[i], 8);
    struct iovec pieces[] = {{head, 5 + 8 * count}, {(void *)(uintptr_t)bytes, length}};
    return wf_write(client, pieces, length > 0 ? 2 : 1);
}

/* Takes answers up to the next that somebody asked for, or up to the next at all where it `stops` there. Its number and the answer go to
 * `number` and `told`, and of the bytes behind, `most` to `room`. `heard` gets what came unasked. Returns 0, or -1 where the broker is
 * gone. */
static inline int wf_next(wf_client *client, uint8_t *number, wf_told *told, uint8_t *room, size_t most, bool stops) {
    uint8_t head[WF_ANSWER], own[WF_MOST_TOLD], rest[256];
    for (;;) {
        if (wf_read(client, head, sizeof head)) return -1;
        *number = head[4];
        *told = (wf_told){head[5], wf_number(head + 6)};
        bool is_event = (*number == WF_HEARD_TOLD || *number == WF_HEARD_LEFT) && told->code == WF_OK; /* and not refused */
        size_t has = is_event ? sizeof own : most, length = wf_number(head) - 6, kept = length < has ? length : has;
        if (kept > 0 && wf_read(client, is_event ? own : room, kept)) return -1;
        for (size_t left = length - kept, part; left > 0; left -= part)
            if (wf_read(client, rest, part = left < sizeof rest ? left : sizeof rest)) return -1;
        if (is_event && client->heard) client->heard(client->of, (wf_heard){*number, told->value, own, kept});
        if (!is_event || stops) return 0;
    }
}

/* Waits for all answers that are owed. Returns the first of them that was refused, or 0 and 0. */
static inline wf_told wf_collect(wf_client *client) {
    for (; client->owed > 0; client->owed--) {
        uint8_t number;
        wf_told told;
        if (wf_next(client, &number, &told, NULL, 0, false)) return (wf_told){WF_LOST, 0};
        if (told.code != 0 && client->first.code == 0) client->first = told;
    }
    return client->first;
}

/* From here on messages are sent, and their answers awaited by wf_end. */
static inline void wf_begin(wf_client *client) { client->is_later = true; }

/* Waits for the answers to all messages since wf_begin. Returns the first that was refused, or 0 and 0. */
static inline wf_told wf_end(wf_client *client) {
    wf_told first = wf_collect(client);
    client->is_later = false;
    client->first = (wf_told){0, 0};
    return first;
}

/* Sends a message, and waits for its answer unless that is awaited later. The bytes behind the answer go to `room`. */
static inline wf_told wf_ask(wf_client *client, uint8_t number, const int64_t *arguments, size_t count, const void *bytes, size_t length,
                             uint8_t *room, size_t most) {
    wf_told told = {0, 0};
    if (wf_send(client, number, arguments, count, bytes, length)) return (wf_told){WF_LOST, 0};
    if (client->is_later) {
        if (++client->owed >= WF_MOST_OWED) wf_collect(client); /* so that neither side waits for the other */
        return told;
    }
    return wf_next(client, &number, &told, room, most, false) ? (wf_told){WF_LOST, 0} : told;
}

/* Waits for something unasked, which `heard` gets. Returns 0, or -1 where the broker is gone. Nothing may be owed. */
static inline int wf_listen(wf_client *client) {
    uint8_t number;
    wf_told told;
    return wf_next(client, &number, &told, NULL, 0, true);
}

/* Waits for the next tick, behind all answers that are owed. The value is the tick's number. */
static inline wf_told wf_wait(wf_client *client) {
    bool is_later = client->is_later;
    wf_collect(client);
    client->is_later = false;
    wf_told told = wf_ask(client, 52, NULL, 0, NULL, 0, NULL, 0);
    client->is_later = is_later;
    return told;
}

/* tools/live-calls writes what stands from here on. */

enum wf_code {
    WF_CODE_OK = 0,
    WF_CODE_OUT_OF_MEMORY = 1,
    WF_CODE_ILLEGAL_ARGUMENT = 2,
    WF_CODE_UNSUPPORTED = 3,
    WF_CODE_NOT_SUPPORTED = 4,
    WF_CODE_BAD_ATTRIBUTE = 5,
    WF_CODE_IN_USE = 6,
    WF_CODE_BUSY = 7,
    WF_CODE_NO_BUFFER = 8,
    WF_CODE_BAD_DEVICE = 9,
    WF_CODE_BAD_HANDLE = 10,
    WF_CODE_INCONSISTENCY = 11,
    WF_CODE_LIMIT = 12,
    WF_CODE_NO_CALL = 255
};

enum wf_format {
    WF_FORMAT_RGBA8 = 0,
    WF_FORMAT_RGBA8_PRE = 1,
    WF_FORMAT_RGBX8 = 2,
    WF_FORMAT_A8 = 3
};

enum wf_stat {
    WF_STAT_STREAMS = 0,
    WF_STAT_BYTES = 1
};

enum wf_transition {
    WF_TRANSITION_NOW = 0,
    WF_TRANSITION_VSYNC = 1
};

enum wf_element {
    WF_ELEMENT_DEST = 0,
    WF_ELEMENT_SOURCE = 1,
    WF_ELEMENT_SRC_RECT = 2,
    WF_ELEMENT_FLIP = 3,
    WF_ELEMENT_ROTATION = 4,
    WF_ELEMENT_FILTER = 5,
    WF_ELEMENT_TRANSPARENCY = 6,
    WF_ELEMENT_ALPHA = 7,
    WF_ELEMENT_MASK = 8
};

enum wf_context {
    WF_CONTEXT_ROTATION = 0,
    WF_CONTEXT_BACKGROUND = 1,
    WF_CONTEXT_WIDTH = 2,
    WF_CONTEXT_HEIGHT = 3,
    WF_CONTEXT_LOWEST = 4
};

enum wf_port {
    WF_PORT_MODE = 0,
    WF_PORT_BACKGROUND = 1,
    WF_PORT_POWER = 2,
    WF_PORT_WIDTH = 3,
    WF_PORT_HEIGHT = 4,
    WF_PORT_ATTACHED = 5
};

enum wf_pipe {
    WF_PIPE_DEST = 0,
    WF_PIPE_SRC_RECT = 1,
    WF_PIPE_FLIP = 2,
    WF_PIPE_ROTATION = 3,
    WF_PIPE_FILTER = 4,
    WF_PIPE_ALPHA = 5,
    WF_PIPE_TRANSPARENCY = 6,
    WF_PIPE_PORT = 7,
    WF_PIPE_PENDING = 8,
    WF_PIPE_SHOWING = 9
};

/* Parts of the transparency of an element, which are added. */
enum { WF_ALPHA = 1, WF_SOURCE = 2, WF_MASK = 4 };

/* Makes a stream of 2 to 4 buffers, each an image of this size and format with sides from 1 to `MOST_SIDE`. */
static inline wf_told wf_stream_new(wf_client *client, int64_t width, int64_t height, enum wf_format format, int64_t buffers) {
    const int64_t arguments[] = {width, height, format, buffers};
    return wf_ask(client, 1, arguments, 4, NULL, 0, NULL, 0);
}

/* Makes a queue stream, in which up to `depth` posted images wait, from 1 to 8, and of which each frame shows the next. */
static inline wf_told wf_stream_queue(wf_client *client, int64_t width, int64_t height, enum wf_format format, int64_t depth) {
    const int64_t arguments[] = {width, height, format, depth};
    return wf_ask(client, 2, arguments, 4, NULL, 0, NULL, 0);
}

/* Destroys a stream. What names it otherwise keeps it. */
static inline wf_told wf_stream_destroy(wf_client *client, uint32_t stream) {
    const int64_t arguments[] = {stream};
    return wf_ask(client, 3, arguments, 1, NULL, 0, NULL, 0);
}

/* Takes a stream's write buffer. */
static inline wf_told wf_acquire(wf_client *client, uint32_t stream) {
    const int64_t arguments[] = {stream};
    return wf_ask(client, 4, arguments, 1, NULL, 0, NULL, 0);
}

/* Posts a write buffer, which waits in its stream as a finished image. */
static inline wf_told wf_post(wf_client *client) {
    return wf_ask(client, 5, NULL, 0, NULL, 0, NULL, 0);
}

/* Gives a write buffer back unseen. */
static inline wf_told wf_discard(wf_client *client) {
    return wf_ask(client, 6, NULL, 0, NULL, 0, NULL, 0);
}

/* Counts what is kept. */
static inline wf_told wf_stat(wf_client *client, enum wf_stat what) {
    const int64_t arguments[] = {what};
    return wf_ask(client, 7, arguments, 1, NULL, 0, NULL, 0);
}

/* Makes a device. */
static inline wf_told wf_device_new(wf_client *client) {
    return wf_ask(client, 8, NULL, 0, NULL, 0, NULL, 0);
}

/* Destroys a device, its contexts and all that is theirs. */
static inline wf_told wf_device_destroy(wf_client *client, uint32_t device) {
    const int64_t arguments[] = {device};
    return wf_ask(client, 9, arguments, 1, NULL, 0, NULL, 0);
}

/* Reads and clears a device's error register. */
static inline wf_told wf_get_error(wf_client *client, uint32_t device) {
    const int64_t arguments[] = {device};
    return wf_ask(client, 10, arguments, 1, NULL, 0, NULL, 0);
}

/* Makes a context of a port's screen; ports count from 1. */
static inline wf_told wf_screen_context(wf_client *client, uint32_t device, int64_t port) {
    const int64_t arguments[] = {device, port};
    return wf_ask(client, 11, arguments, 2, NULL, 0, NULL, 0);
}

/* Makes an off-screen context, which draws into a stream. */
static inline wf_told wf_stream_context(wf_client *client, uint32_t device, uint32_t stream) {
    const int64_t arguments[] = {device, stream};
    return wf_ask(client, 12, arguments, 2, NULL, 0, NULL, 0);
}

/* Destroys a context with its elements, sources and masks. */
static inline wf_told wf_context_destroy(wf_client *client, uint32_t device, uint32_t context) {
    const int64_t arguments[] = {device, context};
    return wf_ask(client, 13, arguments, 2, NULL, 0, NULL, 0);
}

/* Makes an element. */
static inline wf_told wf_element_new(wf_client *client, uint32_t device, uint32_t context) {
    const int64_t arguments[] = {device, context};
    return wf_ask(client, 14, arguments, 2, NULL, 0, NULL, 0);
}

/* Destroys an element, which leaves the cached scene too. */
static inline wf_told wf_element_destroy(wf_client *client, uint32_t device, uint32_t element) {
    const int64_t arguments[] = {device, element};
    return wf_ask(client, 15, arguments, 2, NULL, 0, NULL, 0);
}

/* Makes a source, which shows a stream of pixels. */
static inline wf_told wf_source_new(wf_client *client, uint32_t device, uint32_t context, uint32_t stream) {
    const int64_t arguments[] = {device, context, stream};
    return wf_ask(client, 16, arguments, 3, NULL, 0, NULL, 0);
}

/* Destroys a source. */
static inline wf_told wf_source_destroy(wf_client *client, uint32_t device, uint32_t source) {
    const int64_t arguments[] = {device, source};
    return wf_ask(client, 17, arguments, 2, NULL, 0, NULL, 0);
}

/* Makes a mask, which shows a stream of alphas. */
static inline wf_told wf_mask_new(wf_client *client, uint32_t device, uint32_t context, uint32_t stream) {
    const int64_t arguments[] = {device, context, stream};
    return wf_ask(client, 18, arguments, 3, NULL, 0, NULL, 0);
}

/* Destroys a mask. */
static inline wf_told wf_mask_destroy(wf_client *client, uint32_t device, uint32_t mask) {
    const int64_t arguments[] = {device, mask};
    return wf_ask(client, 19, arguments, 2, NULL, 0, NULL, 0);
}

/* Sets an attribute of an element. Numbers that the attribute does not have are not read. */
static inline wf_told wf_element_set(wf_client *client, uint32_t device, uint32_t element, enum wf_element attr, const int64_t value[4]) {
    const int64_t arguments[] = {device, element, attr, value[0], value[1], value[2], value[3]};
    return wf_ask(client, 20, arguments, 7, NULL, 0, NULL, 0);
}

/* Reads one number of an attribute of an element, by its index from 0. */
static inline wf_told wf_element_get(wf_client *client, uint32_t device, uint32_t element, enum wf_element attr, int64_t index) {
    const int64_t arguments[] = {device, element, attr, index};
    return wf_ask(client, 21, arguments, 4, NULL, 0, NULL, 0);
}

/* Inserts an element directly above another one, or at the bottom by 0; one that is inserted already is moved. */
static inline wf_told wf_element_insert(wf_client *client, uint32_t device, uint32_t element, uint32_t below) {
    const int64_t arguments[] = {device, element, below};
    return wf_ask(client, 22, arguments, 3, NULL, 0, NULL, 0);
}

/* Takes an element out of the cached scene. */
static inline wf_told wf_element_remove(wf_client *client, uint32_t device, uint32_t element) {
    const int64_t arguments[] = {device, element};
    return wf_ask(client, 23, arguments, 2, NULL, 0, NULL, 0);
}

/* Asks for the element directly above one. */
static inline wf_told wf_element_above(wf_client *client, uint32_t device, uint32_t element) {
    const int64_t arguments[] = {device, element};
    return wf_ask(client, 24, arguments, 2, NULL, 0, NULL, 0);
}

/* Asks for the element directly below one. */
static inline wf_told wf_element_below(wf_client *client, uint32_t device, uint32_t element) {
    const int64_t arguments[] = {device, element};
    return wf_ask(client, 25, arguments, 2, NULL, 0, NULL, 0);
}

/* Sets an attribute of a context. Numbers that the attribute does not have are not read. */
static inline wf_told wf_context_set(wf_client *client, uint32_t device, uint32_t context, enum wf_context attr, const int64_t value[4]) {
    const int64_t arguments[] = {device, context, attr, value[0], value[1], value[2], value[3]};
    return wf_ask(client, 26, arguments, 7, NULL, 0, NULL, 0);
}

/* Reads one number of an attribute of a context, by its index from 0. */
static inline wf_told wf_context_get(wf_client *client, uint32_t device, uint32_t context, enum wf_context attr, int64_t index) {
    const int64_t arguments[] = {device, context, attr, index};
    return wf_ask(client, 27, arguments, 4, NULL, 0, NULL, 0);
}

/* Makes the cached scene of a context its committed one, as a whole or not at all. */
static inline wf_told wf_commit(wf_client *client, uint32_t device, uint32_t context) {
    const int64_t arguments[] = {device, context};
    return wf_ask(client, 28, arguments, 2, NULL, 0, NULL, 0);
}

/* Makes a context active: each tick begins a frame of it. */
static inline wf_told wf_activate(wf_client *client, uint32_t device, uint32_t context) {
    const int64_t arguments[] = {device, context};
    return wf_ask(client, 29, arguments, 2, NULL, 0, NULL, 0);
}

/* Makes a context inactive. */
static inline wf_told wf_deactivate(wf_client *client, uint32_t device, uint32_t context) {
    const int64_t arguments[] = {device, context};
    return wf_ask(client, 30, arguments, 2, NULL, 0, NULL, 0);
}

/* Begins a frame of a context that is not active. */
static inline wf_told wf_begin_context(wf_client *client, uint32_t device, uint32_t context) {
    const int64_t arguments[] = {device, context};
    return wf_ask(client, 31, arguments, 2, NULL, 0, NULL, 0);
}

/* Sets an attribute of a port, counted from 1. Numbers that the attribute does not have are not read. */
static inline wf_told wf_port_set(wf_client *client, int64_t port, enum wf_port attr, const int64_t value[4]) {
    const int64_t arguments[] = {port, attr, value[0], value[1], value[2], value[3]};
    return wf_ask(client, 32, arguments, 6, NULL, 0, NULL, 0);
}

/* Reads one number of an attribute of a port, by its index from 0. */
static inline wf_told wf_port_get(wf_client *client, int64_t port, enum wf_port attr, int64_t index) {
    const int64_t arguments[] = {port, attr, index};
    return wf_ask(client, 33, arguments, 3, NULL, 0, NULL, 0);
}

/* Attaches a display to a port by 1, or detaches it by 0, at once. */
static inline wf_told wf_attach(wf_client *client, int64_t port, int64_t on) {
    const int64_t arguments[] = {port, on};
    return wf_ask(client, 34, arguments, 2, NULL, 0, NULL, 0);
}

/* Sets an attribute of a pipeline, counted from 1. Numbers that the attribute does not have are not read. */
static inline wf_told wf_pipe_set(wf_client *client, int64_t pipe, enum wf_pipe attr, const int64_t value[4]) {
    const int64_t arguments[] = {pipe, attr, value[0], value[1], value[2], value[3]};
    return wf_ask(client, 35, arguments, 6, NULL, 0, NULL, 0);
}

/* Reads one number of an attribute of a pipeline, by its index from 0. */
static inline wf_told wf_pipe_get(wf_client *client, int64_t pipe, enum wf_pipe attr, int64_t index) {
    const int64_t arguments[] = {pipe, attr, index};
    return wf_ask(client, 36, arguments, 3, NULL, 0, NULL, 0);
}

/* Asks for a pipeline to be shown by a port, or by none by 0. */
static inline wf_told wf_pipe_bind_port(wf_client *client, int64_t pipe, int64_t port) {
    const int64_t arguments[] = {pipe, port};
    return wf_ask(client, 37, arguments, 2, NULL, 0, NULL, 0);
}

/* Makes a source of a pipeline, which shows a stream of pixels. */
static inline wf_told wf_display_source(wf_client *client, int64_t pipe, uint32_t stream) {
    const int64_t arguments[] = {pipe, stream};
    return wf_ask(client, 38, arguments, 2, NULL, 0, NULL, 0);
}

/* Destroys a source of a pipeline. */
static inline wf_told wf_display_source_destroy(wf_client *client, uint32_t source) {
    const int64_t arguments[] = {source};
    return wf_ask(client, 39, arguments, 1, NULL, 0, NULL, 0);
}

/* Asks for a pipeline to show a source of its own, or none by 0. It replaces an earlier request. */
static inline wf_told wf_pipe_bind_source(wf_client *client, int64_t pipe, uint32_t source, enum wf_transition transition) {
    const int64_t arguments[] = {pipe, source, transition};
    return wf_ask(client, 40, arguments, 3, NULL, 0, NULL, 0);
}

/* Makes what is cached of every port and pipeline committed, as a whole or not at all. */
static inline wf_told wf_commit_device(wf_client *client) {
    return wf_ask(client, 41, NULL, 0, NULL, 0, NULL, 0);
}

/* Makes what is cached of a port and of its pipelines committed, as a whole or not at all. */
static inline wf_told wf_commit_port(wf_client *client, int64_t port) {
    const int64_t arguments[] = {port};
    return wf_ask(client, 42, arguments, 1, NULL, 0, NULL, 0);
}

/* Makes what is cached of a pipeline committed, as a whole or not at all. */
static inline wf_told wf_commit_pipe(wf_client *client, int64_t pipe) {
    const int64_t arguments[] = {pipe};
    return wf_ask(client, 43, arguments, 1, NULL, 0, NULL, 0);
}

/* Reads and clears the display's error register. */
static inline wf_told wf_display_error(wf_client *client) {
    return wf_ask(client, 44, NULL, 0, NULL, 0, NULL, 0);
}

/* Begins a frame of a port, counted from 1. The picture goes to `room`: its width and its height, of two bytes each, and its
 * pixels, of four. Between wf_begin and wf_end it goes nowhere. */
static inline wf_told wf_begin_port(wf_client *client, int64_t port, uint8_t *room, size_t most) {
    const int64_t arguments[] = {port};
    return wf_ask(client, 45, arguments, 1, NULL, 0, room, most);
}

/* Paints into the canvas that is held. */
static inline wf_told wf_fill(wf_client *client, int64_t r, int64_t g, int64_t b, int64_t a) {
    const int64_t arguments[] = {r, g, b, a};
    return wf_ask(client, 46, arguments, 4, NULL, 0, NULL, 0);
}

/* Paints into the canvas that is held. */
static inline wf_told wf_rectangle(
    wf_client *client, int64_t x, int64_t y, int64_t w, int64_t h, int64_t r, int64_t g, int64_t b, int64_t a
) {
    const int64_t arguments[] = {x, y, w, h, r, g, b, a};
    return wf_ask(client, 47, arguments, 8, NULL, 0, NULL, 0);
}

/* Paints into the canvas that is held. */
static inline wf_told wf_checker(
    wf_client *client, int64_t n, int64_t r, int64_t g, int64_t b, int64_t a, int64_t r2, int64_t g2, int64_t b2, int64_t a2
) {
    const int64_t arguments[] = {n, r, g, b, a, r2, g2, b2, a2};
    return wf_ask(client, 48, arguments, 9, NULL, 0, NULL, 0);
}

/* Paints into the canvas that is held. */
static inline wf_told wf_ramp(
    wf_client *client, int64_t r, int64_t g, int64_t b, int64_t a, int64_t r2, int64_t g2, int64_t b2, int64_t a2
) {
    const int64_t arguments[] = {r, g, b, a, r2, g2, b2, a2};
    return wf_ask(client, 49, arguments, 8, NULL, 0, NULL, 0);
}

/* Writes a rectangle of pixels into the canvas that is held. */
static inline wf_told wf_put(wf_client *client, int64_t x, int64_t y, int64_t w, int64_t h, const void *bytes, size_t length) {
    const int64_t arguments[] = {x, y, w, h};
    return wf_ask(client, 50, arguments, 4, bytes, length, NULL, 0);
}

/* Composes all active contexts, and then each port. The value is the tick's number. */
static inline wf_told wf_tick(wf_client *client) {
    return wf_ask(client, 51, NULL, 0, NULL, 0, NULL, 0);
}

/* Tells bytes to a client. */
static inline wf_told wf_tell(wf_client *client, uint8_t other, const void *bytes, size_t length) {
    const int64_t arguments[] = {other};
    return wf_ask(client, 53, arguments, 1, bytes, length, NULL, 0);
}

/* Asks for the sides of a stream: the width times 65536, and the height. */
static inline wf_told wf_size(wf_client *client, int64_t stream) {
    const int64_t arguments[] = {stream};
    return wf_ask(client, 54, arguments, 1, NULL, 0, NULL, 0);
}

/* tools/live-calls writes what stands up to here. */

#endif
