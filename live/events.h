/* Pointer, touch panel and keys of Linux's input devices, as words for the window manager. */
#ifndef EVENTS_H
#define EVENTS_H

#include "output.h"

#include <linux/input.h>
#include <sys/ioctl.h>

enum { MOST_DEVICES = 8, MOST_HELD = 8, SIDES = 2 };

/* Devices, with the least and the most of each side where they are panels; the pointer in a picture of some sides; and what a report has
 * told so far, which is handed on at its end, when the place of a press is known. */
typedef struct events {
    int count, fds[MOST_DEVICES];
    int32_t least[MOST_DEVICES][SIDES], most[MOST_DEVICES][SIDES], at[SIDES], size[SIDES];
    bool is_moved;
    int held;
    word buttons[MOST_HELD];
} events;

/* Opens devices by their names. Returns 0, or -1 with errno. */
static inline int open_events(events *e, char **names, int count) {
    for (; e->count < count && e->count < MOST_DEVICES; e->count++) {
        int fd = e->fds[e->count] = open(names[e->count], O_RDONLY | O_NONBLOCK | O_CLOEXEC);
        if (fd < 0) return -1;
        for (unsigned side = 0; side < SIDES; side++) {
            struct input_absinfo range = {0};
            if (ioctl(fd, EVIOCGABS(ABS_X + side), &range) < 0) continue; /* it is no panel */
            e->least[e->count][side] = range.minimum;
            e->most[e->count][side] = range.maximum;
        }
    }
    return 0;
}

/* Lets the pointer stand at a place of a side, as far as the picture goes. */
static inline void point_at(events *e, int side, int64_t place) {
    int64_t last = e->size[side] > 0 ? e->size[side] - 1 : 0;
    e->at[side] = (int32_t)(place < 0 ? 0 : place > last ? last : place);
    e->is_moved = true;
}

/* Returns the number of a button as X11 has it, or 0 where a key is none. A finger is the first. */
static inline int32_t button_of(int code) {
    return code == BTN_LEFT || code == BTN_TOUCH ? 1 : code == BTN_MIDDLE ? 2 : code == BTN_RIGHT ? 3 : 0;
}

static inline void take_key(events *e, const struct input_event *told, output *own) {
    int32_t button = button_of(told->code);
    if (button != 0 && e->held < MOST_HELD) e->buttons[e->held++] = (word){told->value ? PRESS : RELEASE, 0, 0, button};
    else if (told->code < BTN_MISC && told->value != 0) tell(own, (word){KEY, told->code, 0, 0});
}

/* Hands on what a report has told: the place first, and then buttons there. */
static inline void end_report(events *e, output *own) {
    if (e->is_moved) tell(own, (word){MOVE, e->at[0], e->at[1], 0});
    for (int i = 0; i < e->held; i++) tell(own, (word){e->buttons[i].letter, e->at[0], e->at[1], e->buttons[i].third});
    e->is_moved = false;
    e->held = 0;
}

static inline void take_input(events *e, int device, const struct input_event *told, output *own) {
    if (told->type == EV_REL && told->code <= REL_Y) point_at(e, told->code, (int64_t)e->at[told->code] + told->value);
    if (told->type == EV_ABS && told->code <= ABS_Y) {
        int64_t least = e->least[device][told->code], range = (int64_t)e->most[device][told->code] - least + 1;
        if (range > 1) point_at(e, told->code, (told->value - least) * e->size[told->code] / range);
    }
    if (told->type == EV_KEY) take_key(e, told, own);
    if (told->type == EV_SYN && told->code == SYN_REPORT) end_report(e, own);
}

/* Takes what all devices told since the last time, for a picture of w by h. A device that is gone says nothing any more. */
static inline void take_inputs(events *e, int w, int h, output *own) {
    struct input_event told[64];
    e->size[0] = w;
    e->size[1] = h;
    for (int i = 0; i < e->count; i++) {
        ssize_t count;
        while ((count = read(e->fds[i], told, sizeof told)) > 0)
            for (size_t k = 0; k < (size_t)count / sizeof *told; k++) take_input(e, i, &told[k], own);
    }
}

#endif
