/* The three functions of the heap that the library for C asks for, over malloc, realloc and free. The kit brings them for x86-64 alone; for
   another target they are compiled of this. No proof covers them. An alignment divides 16, which malloc's blocks have; of no bytes a block is
   one of its alignment. */
#include <stddef.h>
#include <stdlib.h>

struct tried {
    _Bool ok;
    void *block;
};

/* Where no block is: it is not read. */
static _Alignas(16) char nowhere[16];

static struct tried tried(void *block)
{
    struct tried told = {block != NULL, block ? block : nowhere};
    return told;
}

struct tried rattle_alloc(size_t size, size_t align)
{
    return tried(malloc(size ? size : align));
}

struct tried rattle_realloc(void *block, size_t kept, size_t size, size_t align)
{
    (void)kept;
    return tried(realloc(block, size ? size : align));
}

void rattle_dealloc(void *block)
{
    free(block);
}
