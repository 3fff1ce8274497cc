/* Memory that counts what is asked of it, and refuses one call. It stands before that of the C library in a program that is run by
   tools/lib/memory.py, and is no part of any crate. From main on it counts the calls that ask for memory, from 1. The variable
   WF_REFUSE says which of them is refused, 0 for none; into the file of WF_TOLD goes at the end how many calls there were, how many
   were refused, and the most bytes that were held at once. */

#define _GNU_SOURCE
#include <errno.h>
#include <malloc.h>
#include <stdio.h>
#include <stdlib.h>
#include <sys/syscall.h>
#include <unistd.h>

extern void *__libc_malloc(size_t size);
extern void *__libc_calloc(size_t count, size_t size);
extern void *__libc_realloc(void *held, size_t size);
extern void *__libc_memalign(size_t alignment, size_t size);
extern void __libc_free(void *held);

static int counts;
static unsigned long calls, refused, refuse;
static long held_now, held_most;

/* Whether the call that comes now is refused. */
static int is_refused(void)
{
    if (!__atomic_load_n(&counts, __ATOMIC_SEQ_CST) || __atomic_add_fetch(&calls, 1, __ATOMIC_SEQ_CST) != refuse)
        return 0;
    __atomic_add_fetch(&refused, 1, __ATOMIC_SEQ_CST);
    errno = ENOMEM;
    return 1;
}

/* Adds bytes to those that are held. */
static void add(long bytes)
{
    long now = __atomic_add_fetch(&held_now, bytes, __ATOMIC_SEQ_CST);
    long most = __atomic_load_n(&held_most, __ATOMIC_SEQ_CST);
    while (now > most && !__atomic_compare_exchange_n(&held_most, &most, now, 0, __ATOMIC_SEQ_CST, __ATOMIC_SEQ_CST))
        ;
}

/* Counts memory that was given. */
static void *given(void *held)
{
    if (held)
        add((long)malloc_usable_size(held));
    return held;
}

void *malloc(size_t size)
{
    return is_refused() ? NULL : given(__libc_malloc(size));
}

void *calloc(size_t count, size_t size)
{
    return is_refused() ? NULL : given(__libc_calloc(count, size));
}

void *memalign(size_t alignment, size_t size)
{
    return is_refused() ? NULL : given(__libc_memalign(alignment, size));
}

void *aligned_alloc(size_t alignment, size_t size)
{
    return memalign(alignment, size);
}

int posix_memalign(void **into, size_t alignment, size_t size)
{
    *into = memalign(alignment, size);
    return *into ? 0 : ENOMEM;
}

void *realloc(void *held, size_t size)
{
    long before = held ? (long)malloc_usable_size(held) : 0;
    void *moved;
    if (is_refused())
        return NULL;
    moved = __libc_realloc(held, size);
    if (moved || !size)
        add((moved ? (long)malloc_usable_size(moved) : 0) - before);
    return moved;
}

void free(void *held)
{
    if (held)
        add(-(long)malloc_usable_size(held));
    __libc_free(held);
}

__attribute__((constructor)) static void begin(void)
{
    const char *which = getenv("WF_REFUSE");
    refuse = which ? strtoul(which, NULL, 10) : 0;
    __atomic_store_n(&counts, 1, __ATOMIC_SEQ_CST);
}

/* Tells what was counted, once. */
static void tell(void)
{
    static int done;
    const char *path = getenv("WF_TOLD");
    long most = held_most;
    FILE *told;
    __atomic_store_n(&counts, 0, __ATOMIC_SEQ_CST);
    if (__atomic_exchange_n(&done, 1, __ATOMIC_SEQ_CST))
        return;
    told = path ? fopen(path, "w") : NULL;
    if (told) {
        fprintf(told, "%lu %lu %ld\n", calls, refused, most);
        fclose(told);
    }
}

__attribute__((destructor)) static void end(void)
{
    tell();
}

/* A program that may start threads ends by this call, which runs no destructor. */
void _exit(int status)
{
    tell();
    syscall(SYS_exit_group, status);
    __builtin_unreachable();
}
