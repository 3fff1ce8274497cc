/* Joins the calls of several client processes into the one input of a core, and hands each answer to whom it is for.
 *
 *     cc -O2 -o wfbroker wfbroker.c && ./wfbroker DIR -- CORE ARGUMENT ..
 *
 * In the folder DIR it makes three sockets and a named pipe, which are its user's alone until somebody changes their modes: `wm` takes one
 * client, number 0; `app` takes the clients 1 to 7; `out` takes one, number 8. Who connects to which is said by file permissions. Then it
 * starts CORE, whose standard input and output it holds, and whose descriptor 3 is the writing end of `frames`, the named pipe from which
 * the output reads. Frames don't pass through the broker: it reads them only where there is no output.
 *
 * It puts a client's number before each of its frames, so that none can speak as another, and looks at lengths and numbers of clients
 * alone, and at whether an answer came unasked: it knows no call. Of several clients with a whole frame it takes one each in turn. Where a
 * client leaves, or is cut off, it tells the core by message 0 as client 255, and gives the number to nobody else before that is answered.
 *
 * It ends with the core's status where the core ends, and by SIGTERM or SIGINT: then the core's input ends, and it waits for the core.
 */
#define _GNU_SOURCE
#include "queue.h"

#include <fcntl.h>
#include <poll.h>
#include <signal.h>
#include <stdio.h>
#include <sys/file.h>
#include <sys/socket.h>
#include <sys/stat.h>
#include <sys/un.h>
#include <sys/wait.h>

enum { MANAGER = 0, OUTPUT = 8, CLIENTS = 9, BROKER = 255, GONE = 0, TOLD = 55, LEFT = 56 };
enum { LEAST_ANSWER = 7, MOST = 4194338 }; /* the least length of an answer, and the most of a frame to the core */
enum { AHEAD = 64 * 1024 };         /* with so many bytes on their way to the core no frame is passed on */
enum { OWED = 64 };                 /* nor one of a client of which so many are not answered yet, so that others wait for no more of it */
enum { SLOW = 64 * 1024 };          /* nor one of a client that has so many bytes to read */
enum { PATIENCE = 5 };              /* one that reads none of them for so many seconds is cut off */
enum { MOST_KEPT = 5 * MOST };      /* and so is one that has more than these to read: pictures of four ports, and as much as one more */

/* A client: its socket or -1, whether the core still has to let go of the last one of this number, what it sent and what it will get, how
 * many of its frames are not answered yet, and when it read last. */
typedef struct peer { int fd; bool is_leaving; queue in, out; int owed; double read_at; } peer;
/* A socket that takes the clients from `first` to `last`. */
typedef struct door { const char *name; int first, last, fd; } door;

static peer peers[CLIENTS];
static door doors[] = {{"wm", MANAGER, MANAGER, -1}, {"app", 1, OUTPUT - 1, -1}, {"out", OUTPUT, OUTPUT, -1}};
enum { DOORS = 3, TO_CORE = DOORS, FROM_CORE, FRAMES, FIRST_PEER, WATCHED = FIRST_PEER + CLIENTS };
static queue to_core, from_core;
static int core_in, core_out, frames, leaving[CLIENTS], leaving_count;
static const char *folder;
static volatile sig_atomic_t is_ending;

static void die(const char *what) {
    fprintf(stderr, "wfbroker: %s: %s\n", what, strerror(errno));
    exit(1);
}

/* Reads frames that nobody is there to read, up to the last one that was written. */
static void drain(void) {
    uint8_t nowhere[PIECE];
    while (read(frames, nowhere, sizeof nowhere) > 0) {}
}

/* Lets a client go, and tells the core. `why` is told where it is cut off. */
static void drop(int k, const char *why) {
    uint8_t gone[1 + 8] = {[0] = GONE, [8] = (uint8_t)k};
    if (why) fprintf(stderr, "wfbroker: client %d is cut off: %s\n", k, why);
    close(peers[k].fd);
    free(peers[k].in.at);
    free(peers[k].out.at);
    peers[k] = (peer){.fd = -1, .is_leaving = true};
    leaving[leaving_count++] = k;
    add_head(&to_core, 1 + sizeof gone, BROKER);
    add(&to_core, gone, sizeof gone);
}

/* Frees the number that left first: its answers came before this one, and so did the frames of its ticks. */
static void let_go(void) {
    int k = leaving[0];
    if (leaving_count == 0) exit(3);
    memmove(leaving, leaving + 1, (size_t)--leaving_count * sizeof *leaving);
    if (k == OUTPUT) drain();
    peers[k].is_leaving = false;
}

/* Returns a number that a door may give, or -1. */
static int free_number(const door *d) {
    for (int k = d->first; k <= d->last; k++)
        if (peers[k].fd < 0 && !peers[k].is_leaving) return k;
    return -1;
}

static void take_client(const door *d) {
    int fd = accept4(d->fd, NULL, NULL, SOCK_NONBLOCK | SOCK_CLOEXEC);
    if (fd >= 0) peers[free_number(d)].fd = fd;
}

/* Whether a whole frame of a client is there, so that there is no need to read more. A wrong length counts as whole. */
static bool is_whole(const queue *q) {
    return held(q) >= LENGTH && (length_at(q) >= MOST || held(q) >= LENGTH + length_at(q));
}

/* Passes a frame of a client on. False where none is passed. */
static bool pass_call(int k) {
    peer *p = &peers[k];
    if (p->fd < 0 || p->owed >= OWED || held(&p->out) > SLOW || !is_whole(&p->in)) return false;
    size_t length = length_at(&p->in);
    if (length < 1 || length >= MOST) {
        drop(k, "a length is wrong");
        return false;
    }
    add_head(&to_core, length + 1, k);
    add(&to_core, p->in.at + p->in.from + LENGTH, length);
    take(&p->in, LENGTH + length);
    p->owed++;
    return true;
}

/* Passes on frames of all clients in turn, so that none keeps another from the core. The next turn begins where this one ended. */
static void pass_calls(void) {
    static int next;
    for (int idle = 0; idle < CLIENTS && held(&to_core) < AHEAD; next = (next + 1) % CLIENTS) idle = pass_call(next) ? 0 : idle + 1;
}

/* Passes an answer of the core on, unless its client is gone. False where no whole one is there. */
static bool pass_answer(void) {
    if (held(&from_core) < LENGTH) return false;
    size_t length = length_at(&from_core);
    if (length < LEAST_ANSWER || length > 2 * (size_t)MOST) {
        fprintf(stderr, "wfbroker: the core writes no answers\n");
        exit(3);
    }
    if (held(&from_core) < LENGTH + length) return false;
    const uint8_t *at = from_core.at + from_core.from + LENGTH;
    if (at[0] == BROKER) let_go();
    if (at[0] < CLIENTS && peers[at[0]].fd >= 0) {
        peer *p = &peers[at[0]];
        if ((at[1] != TOLD && at[1] != LEFT) || at[2] != 0) p->owed--; /* what comes unasked is never refused */
        if (held(&p->out) == 0) p->read_at = seconds();
        add_head(&p->out, length - 1, -1);
        add(&p->out, at + 1, length - 1);
    }
    take(&from_core, LENGTH + length);
    return true;
}

/* Hands a client its answers, and cuts it off where it doesn't read them. */
static void hand_answers(int k) {
    peer *p = &peers[k];
    size_t before = held(&p->out);
    if (p->fd < 0) return;
    if (!flush(p->fd, &p->out)) drop(k, NULL);
    else if (held(&p->out) < before) p->read_at = seconds();
    else if (held(&p->out) > MOST_KEPT) drop(k, "it has too much to read");
    else if (held(&p->out) > SLOW && seconds() - p->read_at > PATIENCE) drop(k, "it does not read");
}

/* Waits until something can be done: `w` gets what. */
static void watch(struct pollfd *w, const sigset_t *signals) {
    for (int d = 0; d < DOORS; d++) w[d] = (struct pollfd){free_number(&doors[d]) < 0 ? -1 : doors[d].fd, POLLIN, 0};
    w[TO_CORE] = (struct pollfd){core_in, held(&to_core) ? POLLOUT : 0, 0};
    w[FROM_CORE] = (struct pollfd){core_out, POLLIN, 0};
    w[FRAMES] = (struct pollfd){peers[OUTPUT].fd < 0 ? frames : -1, POLLIN, 0};
    bool is_slow = false;
    for (int k = 0; k < CLIENTS; k++) {
        const peer *p = &peers[k];
        is_slow |= held(&p->out) > SLOW;
        bool is_full = held(&p->in) >= PIECE && is_whole(&p->in);
        w[FIRST_PEER + k] = (struct pollfd){p->fd, (short)((is_full ? 0 : POLLIN) | (held(&p->out) ? POLLOUT : 0)), 0};
    }
    if (ppoll(w, WATCHED, is_slow ? &(struct timespec){.tv_sec = 1} : NULL, signals) < 0 && errno != EINTR) die("poll");
}

/* Does what can be done. False where the core has ended. */
static bool turn(const struct pollfd *w) {
    if (w[FROM_CORE].revents) {
        if (!fill(core_out, &from_core)) return false;
        while (pass_answer()) {}
    }
    if (w[FRAMES].revents & POLLIN) drain();
    for (int k = 0; k < CLIENTS; k++)
        if (w[FIRST_PEER + k].revents & (POLLIN | POLLHUP | POLLERR) && !fill(peers[k].fd, &peers[k].in)) drop(k, NULL);
    for (int d = 0; d < DOORS; d++)
        if (w[d].revents & POLLIN) take_client(&doors[d]);
    pass_calls();
    if (!flush(core_in, &to_core)) return false;
    for (int k = 0; k < CLIENTS; k++) hand_answers(k);
    return true;
}

/* Ends the core's input, behind the frames that are on their way, and reads what it still writes. */
static void end_core(void) {
    for (bool is_there = true; is_there; take(&from_core, held(&from_core))) {
        if (core_in >= 0 && (!flush(core_in, &to_core) || held(&to_core) == 0)) {
            close(core_in);
            core_in = -1;
        }
        struct pollfd w[] = {{core_in, POLLOUT, 0}, {core_out, POLLIN, 0}, {frames, POLLIN, 0}};
        poll(w, 3, -1);
        if (w[1].revents) is_there = fill(core_out, &from_core);
        drain();
    }
}

/* Returns the path of a name in the folder. */
static const char *path_of(const char *name) {
    static char path[sizeof((struct sockaddr_un *)0)->sun_path];
    if ((size_t)snprintf(path, sizeof path, "%s/%s", folder, name) >= sizeof path) {
        errno = ENAMETOOLONG;
        die(folder);
    }
    return path;
}

/* Opens a door. It gets its name when it takes clients, so that who waits for the name can connect. */
static void open_door(door *d) {
    struct sockaddr_un address = {.sun_family = AF_UNIX};
    strcpy(address.sun_path, path_of("opening"));
    unlink(address.sun_path);
    d->fd = socket(AF_UNIX, SOCK_STREAM | SOCK_NONBLOCK | SOCK_CLOEXEC, 0);
    if (d->fd < 0 || bind(d->fd, (struct sockaddr *)&address, sizeof address) || listen(d->fd, CLIENTS)) die(address.sun_path);
    if (rename(address.sun_path, path_of(d->name))) die(d->name);
}

/* Makes the folder with all that stands in it. One broker alone may have it, by a lock that ends with the process. */
static void open_folder(void) {
    umask(077);
    if (mkdir(folder, 0700) && errno != EEXIST) die(folder);
    int lock = open(folder, O_RDONLY | O_DIRECTORY | O_CLOEXEC);
    if (lock < 0 || flock(lock, LOCK_EX | LOCK_NB)) die(folder);
    unlink(path_of("frames"));
    if (mkfifo(path_of("frames"), 0600)) die("frames");
    frames = open(path_of("frames"), O_RDWR | O_NONBLOCK | O_CLOEXEC); /* for writing too, so that it never looks closed */
    if (frames < 0) die("frames");
    for (int d = 0; d < DOORS; d++) open_door(&doors[d]);
}

static void close_folder(void) {
    unlink(path_of("frames"));
    for (int d = 0; d < DOORS; d++) unlink(path_of(doors[d].name));
}

/* In a child, becomes the core. The end of the pipe that a program opens by /dev/fd/3 has no other writer. */
static void become_core(char **words, int in, int out, const sigset_t *signals) {
    int to_frames = open(path_of("frames"), O_WRONLY);
    if (to_frames < 0 || dup2(in, 0) < 0 || dup2(out, 1) < 0 || (to_frames != 3 && dup2(to_frames, 3) < 0)) die("core");
    if (to_frames != 3) close(to_frames);
    signal(SIGPIPE, SIG_DFL);
    sigprocmask(SIG_SETMASK, signals, NULL);
    execvp(words[0], words);
    die(words[0]);
}

static pid_t start_core(char **words, const sigset_t *signals) {
    int in[2], out[2];
    if (pipe2(in, O_CLOEXEC) || pipe2(out, O_CLOEXEC)) die("pipe");
    pid_t core = fork();
    if (core < 0) die("fork");
    if (core == 0) become_core(words, in[0], out[1], signals);
    close(in[0]);
    close(out[1]);
    core_in = in[1];
    core_out = out[0];
    if (fcntl(core_in, F_SETFL, O_NONBLOCK) || fcntl(core_out, F_SETFL, O_NONBLOCK)) die("pipe");
    return core;
}

static void end_soon(int which) {
    is_ending = 1;
    signal(which, SIG_DFL); /* a second one ends the broker at once */
}

int main(int argc, char **argv) {
    if (argc < 4 || strcmp(argv[2], "--")) return fprintf(stderr, "usage: wfbroker DIR -- CORE ARGUMENT ..\n"), 2;
    folder = argv[1];
    for (int k = 0; k < CLIENTS; k++) peers[k].fd = -1;
    sigset_t ours, before;
    sigemptyset(&ours);
    sigaddset(&ours, SIGTERM);
    sigaddset(&ours, SIGINT);
    sigprocmask(SIG_BLOCK, &ours, &before); /* both come while the broker waits, and never between */
    signal(SIGPIPE, SIG_IGN);
    open_folder();
    pid_t core = start_core(argv + 3, &before);
    signal(SIGTERM, end_soon);
    signal(SIGINT, end_soon);
    struct pollfd w[WATCHED];
    do watch(w, &before);
    while (!is_ending && turn(w));
    close_folder();
    if (is_ending) end_core();
    int status = 0;
    if (core_in >= 0) close(core_in);
    close(core_out);
    waitpid(core, &status, 0);
    return WIFEXITED(status) ? WEXITSTATUS(status) : 1;
}
