/* Goes before the C library's allocator by LD_PRELOAD: counts growths from a start on, and refuses the one that is asked for. */
#include <stddef.h>

extern void *__libc_malloc(size_t);
extern void *__libc_calloc(size_t, size_t);
extern void *__libc_realloc(void *, size_t);

static long counted, refused_from, refused_to;

/* From now on growths are counted, and those from `from` to `to` are refused, the first one being 1. */
void growths_begin(long from, long to)
{
    counted = 0;
    refused_from = from;
    refused_to = to;
}

/* From now on none is refused. Tells how many there were. */
long growths_end(void)
{
    refused_from = refused_to = 0;
    return counted;
}

static int is_refused(void)
{
    counted++;
    return refused_from <= counted && counted <= refused_to;
}

void *malloc(size_t size)
{
    return is_refused() ? NULL : __libc_malloc(size);
}

void *calloc(size_t count, size_t size)
{
    return is_refused() ? NULL : __libc_calloc(count, size);
}

void *realloc(void *block, size_t size)
{
    return is_refused() ? NULL : __libc_realloc(block, size);
}
