/* An allocator before the C library's own, for bench/refusals: it refuses the allocation whose number, counted from 1, the
   environment has as REFUSED, and writes a byte to the descriptor that it has as REFUSAL_TOLD_TO when it does so. */
#define _GNU_SOURCE
#include <errno.h>
#include <stdatomic.h>
#include <stdlib.h>
#include <unistd.h>

extern void *__libc_malloc(size_t size);
extern void *__libc_calloc(size_t count, size_t size);
extern void *__libc_realloc(void *old, size_t size);
extern void *__libc_memalign(size_t alignment, size_t size);

static atomic_long asked;

/* Counts an allocation, and says whether it is the one that is refused. */
static int is_refused(void)
{
    const char *number = getenv("REFUSED");
    const char *told_to = getenv("REFUSAL_TOLD_TO");
    if (number == NULL || told_to == NULL || ++asked != atol(number))
        return 0;
    (void)!write(atoi(told_to), "r", 1);
    errno = ENOMEM;
    return 1;
}

void *malloc(size_t size)
{
    return is_refused() ? NULL : __libc_malloc(size);
}

void *calloc(size_t count, size_t size)
{
    return is_refused() ? NULL : __libc_calloc(count, size);
}

void *realloc(void *old, size_t size)
{
    return is_refused() ? NULL : __libc_realloc(old, size);
}

void *memalign(size_t alignment, size_t size)
{
    return is_refused() ? NULL : __libc_memalign(alignment, size);
}

void *aligned_alloc(size_t alignment, size_t size)
{
    return is_refused() ? NULL : __libc_memalign(alignment, size);
}

int posix_memalign(void **given, size_t alignment, size_t size)
{
    void *bytes = is_refused() ? NULL : __libc_memalign(alignment, size);
    if (bytes == NULL)
        return ENOMEM;
    *given = bytes;
    return 0;
}
