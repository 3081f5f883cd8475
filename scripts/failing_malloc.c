/* Makes one allocation of a program fail. Preloaded (LD_PRELOAD), with FAIL_ALLOCATION=N in the environment, the Nth
   allocation finds no memory, and 'failed' is written to standard error. For glibc; see check-allocations. */

#include <errno.h>
#include <stddef.h>
#include <stdlib.h>
#include <unistd.h>

extern void *__libc_malloc(size_t);
extern void *__libc_calloc(size_t, size_t);
extern void *__libc_realloc(void *, size_t);
extern void *__libc_memalign(size_t, size_t);

static int fails(void)
{
    static long calls, failing = -1;
    static const char told[] = "failed\n";

    if (failing < 0) {
        const char *number = getenv("FAIL_ALLOCATION");
        failing = number ? atol(number) : 0;
    }
    if (++calls != failing)
        return 0;
    if (write(2, told, sizeof told - 1) < 0)
        _exit(99);
    errno = ENOMEM;
    return 1;
}

void *malloc(size_t size)
{
    return fails() ? NULL : __libc_malloc(size);
}

void *calloc(size_t count, size_t size)
{
    return fails() ? NULL : __libc_calloc(count, size);
}

void *realloc(void *old, size_t size)
{
    return fails() ? NULL : __libc_realloc(old, size);
}

void *memalign(size_t alignment, size_t size)
{
    return fails() ? NULL : __libc_memalign(alignment, size);
}

void *aligned_alloc(size_t alignment, size_t size)
{
    return fails() ? NULL : __libc_memalign(alignment, size);
}

int posix_memalign(void **result, size_t alignment, size_t size)
{
    if (fails())
        return ENOMEM;
    void *made = __libc_memalign(alignment, size);
    if (!made)
        return ENOMEM;
    *result = made;
    return 0;
}
