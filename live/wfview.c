/* The output in a window of X11: it ticks, shows the frames of a port, and tells the window manager of the pointer and the keys.
 *
 *     cc -O2 -o wfview wfview.c -lX11 -lXext && ./wfview DIR [HZ [FRAMES [PORT]]]
 *
 * DIR has the sockets of the broker. It ticks HZ times a second (60), after FRAMES frames it ends and tells how long they took (0: never),
 * and PORT is the one that is shown (1). The window has 24 bits a pixel. Pictures go by shared memory where the display has that, else by
 * the connection. It ends where the broker does.
 */
#define _GNU_SOURCE
#include "output.h"

#include <X11/Xlib.h>
#include <X11/Xutil.h>
#include <X11/extensions/XShm.h>
#include <poll.h>
#include <sys/ipc.h>
#include <sys/shm.h>

static output own;
static Display *display;
static Window window;
static Atom closing;
static XImage *image;
static XShmSegmentInfo shared = {.shmid = -1};
static bool has_failed;

static int fail(Display *of, XErrorEvent *event) {
    (void)of, (void)event;
    has_failed = true;
    return 0;
}

/* Opens the window, in which the display's own pointer is not seen. */
static void open_window(int w, int h) {
    XSetWindowAttributes a = {.event_mask = PointerMotionMask | ButtonPressMask | ButtonReleaseMask | KeyPressMask | ExposureMask};
    window = XCreateWindow(display, DefaultRootWindow(display), 0, 0, (unsigned)w, (unsigned)h, 0, CopyFromParent, InputOutput,
                           CopyFromParent, CWEventMask, &a);
    XStoreName(display, window, "wfview");
    XColor black = {0};
    Pixmap none = XCreateBitmapFromData(display, window, "", 1, 1);
    XDefineCursor(display, window, XCreatePixmapCursor(display, none, none, &black, &black, 0, 0));
    closing = XInternAtom(display, "WM_DELETE_WINDOW", False);
    XSetWMProtocols(display, window, &closing, 1);
    XMapWindow(display, window);
}

/* Makes the image in memory that the display shares. False where it can't, as over a network. */
static bool make_shared(int w, int h) {
    if (!XShmQueryExtension(display)) return false;
    image = XShmCreateImage(display, DefaultVisual(display, DefaultScreen(display)), 24, ZPixmap, NULL, &shared, (unsigned)w, (unsigned)h);
    shared.shmid = image ? shmget(IPC_PRIVATE, (size_t)image->bytes_per_line * (size_t)h, IPC_CREAT | 0600) : -1;
    shared.shmaddr = shared.shmid < 0 ? (char *)-1 : shmat(shared.shmid, NULL, 0);
    if (shared.shmaddr != (char *)-1) {
        image->data = shared.shmaddr;
        int (*before)(Display *, XErrorEvent *) = XSetErrorHandler(fail);
        XShmAttach(display, &shared);
        XSync(display, False); /* a refusal has come by now */
        XSetErrorHandler(before);
        shmctl(shared.shmid, IPC_RMID, NULL); /* it goes with the last who has it */
        if (!has_failed) return true;
        shmdt(shared.shmaddr);
        image->data = NULL;
    }
    if (image) XDestroyImage(image);
    shared.shmid = -1;
    return false;
}

/* Makes the image of the window for these sides, anew where they are others. */
static void make_image(int w, int h) {
    if (image && image->width == w && image->height == h) return;
    if (!window) open_window(w, h);
    else XResizeWindow(display, window, (unsigned)w, (unsigned)h);
    if (image && shared.shmid >= 0) {
        XShmDetach(display, &shared);
        XSync(display, False);
        shmdt(shared.shmaddr);
        image->data = NULL;
    }
    if (image) XDestroyImage(image);
    if (make_shared(w, h)) return;
    char *data = malloc((size_t)w * (size_t)h * 4);
    if (!data) abort();
    image = XCreateImage(display, DefaultVisual(display, DefaultScreen(display)), 24, ZPixmap, 0, data, (unsigned)w, (unsigned)h, 32, 0);
    if (!image) abort();
}

/* Puts rows of the image into the window, and waits until the display has read them. */
static void put_rows(int first, int rows) {
    GC context = DefaultGC(display, DefaultScreen(display));
    unsigned w = (unsigned)image->width, h = (unsigned)rows;
    if (shared.shmid >= 0) XShmPutImage(display, window, context, image, 0, first, 0, first, w, h, False);
    else XPutImage(display, window, context, image, 0, first, 0, first, w, h);
    XSync(display, False);
}

/* Shows what changed. The image has the rest, since where its sides are others all has changed. */
static void show(const shown *frame) {
    make_image(frame->w, frame->h);
    copy_rows(frame, (uint8_t *)image->data, (size_t)image->bytes_per_line, frame->w, frame->first, frame->first + frame->rows);
    put_rows(frame->first, frame->rows);
}

/* Tells what happened in the window. False where it was closed. */
static bool take_events(void) {
    while (XPending(display)) {
        XEvent e;
        XNextEvent(display, &e);
        if (e.type == MotionNotify) tell(&own, (word){MOVE, e.xmotion.x, e.xmotion.y, 0});
        if (e.type == ButtonPress) tell(&own, (word){PRESS, e.xbutton.x, e.xbutton.y, (int32_t)e.xbutton.button});
        if (e.type == ButtonRelease) tell(&own, (word){RELEASE, e.xbutton.x, e.xbutton.y, (int32_t)e.xbutton.button});
        if (e.type == KeyPress) tell(&own, (word){KEY, (int32_t)XLookupKeysym(&e.xkey, 0), 0, 0});
        if (e.type == Expose && image) put_rows(0, image->height);
        if (e.type == ClientMessage && (Atom)e.xclient.data.l[0] == closing) return false;
    }
    return true;
}

/* What the frames took, from the tick to the window. */
typedef struct times { double begun, asked, sum, most; long count; } times;

static void count_frame(times *t) {
    double took = seconds() - t->asked;
    t->count++;
    t->sum += took;
    if (took > t->most) t->most = took;
}

/* Waits for one thing, and does it: a tick is due at `next`. False where the broker is gone. */
static bool turn(double next, int port, times *t) {
    short of_socket = (short)(POLLIN | (held(&own.to) ? POLLOUT : 0));
    struct pollfd w[] = {{own.sock, of_socket, 0}, {own.frames, POLLIN, 0}, {ConnectionNumber(display), POLLIN, 0}};
    double left = next - seconds();
    poll(w, 3, own.is_owed ? 100 : left > 0 ? (int)(left * 1000) + 1 : 0);
    bool was_owed = own.is_owed;
    if (!serve(&own, w[0].revents, w[1].revents)) return false;
    for (shown frame; get_frame(&own, &frame);)
        if (frame.port == port) show(&frame);
    if (was_owed && !own.is_owed) count_frame(t);
    return true;
}

int main(int argc, char **argv) {
    if (argc < 2) return fprintf(stderr, "usage: wfview DIR [HZ [FRAMES [PORT]]]\n"), 2;
    double hz = argc > 2 && atof(argv[2]) > 0 ? atof(argv[2]) : 60;
    long most = argc > 3 ? atol(argv[3]) : 0;
    int port = argc > 4 ? atoi(argv[4]) : 1;
    if (open_output(&own, argv[1])) return perror(argv[1]), 1;
    if (!(display = XOpenDisplay(NULL))) return fprintf(stderr, "wfview: there is no display\n"), 1;
    times t = {.begun = seconds()};
    double next = t.begun;
    while ((most == 0 || t.count < most) && take_events()) {
        double now = seconds();
        if (!own.is_owed && now >= next) {
            next = next + 1 / hz > now ? next + 1 / hz : now;
            t.asked = now;
            tick(&own);
            if (!serve(&own, 0, 0)) break;
        } else if (!turn(next, port, &t)) break;
    }
    double took = seconds() - t.begun;
    printf("%ld ticks in %.2f s, %.1f a second; from tick to window %.2f ms, at most %.2f ms\n", t.count, took, (double)t.count / took,
           1000 * t.sum / (double)(t.count ? t.count : 1), 1000 * t.most);
    return 0;
}
