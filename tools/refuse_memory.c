/*
 * Stands before malloc, calloc, realloc, aligned_alloc and posix_memalign, and refuses requests for memory.
 *
 * It is loaded into a program by LD_PRELOAD. Requests are counted from 1 over all threads.
 *   REFUSE_AT=K    refuses the request number K alone
 *   REFUSE_FROM=K  refuses the request number K and each later one
 *   REFUSED_FD=D   a byte is written to the file descriptor D when a request is refused for the first time, so that
 *                  whoever started the program learns that it met a refusal
 * What is asked for before the program's own code runs, and what is given back, isn't counted.
 */
#include <errno.h>
#include <stdatomic.h>
#include <stddef.h>
#include <stdlib.h>
#include <unistd.h>

static atomic_ulong requests;
static atomic_int has_refused;
static unsigned long refuse_at, refuse_from;
static int report = -1;
static int is_ready;

static unsigned long number_in(const char *name)
{
    const char *text = getenv(name);
    return text ? strtoul(text, NULL, 10) : 0;
}

__attribute__((constructor)) static void prepare(void)
{
    const char *descriptor = getenv("REFUSED_FD");
    refuse_at = number_in("REFUSE_AT");
    refuse_from = number_in("REFUSE_FROM");
    if (descriptor)
        report = atoi(descriptor);
    is_ready = 1;
}

static int is_refused(void)
{
    unsigned long number;
    if (!is_ready)
        return 0;
    number = atomic_fetch_add(&requests, 1) + 1;
    if (number != refuse_at && (refuse_from == 0 || number < refuse_from))
        return 0;
    if (!atomic_exchange(&has_refused, 1) && report >= 0) {
        if (write(report, "r", 1) != 1)
            _exit(125);
    }
    errno = ENOMEM;
    return 1;
}

extern void *__libc_malloc(size_t);
extern void *__libc_calloc(size_t, size_t);
extern void *__libc_realloc(void *, size_t);
extern void *__libc_memalign(size_t, size_t);

void *malloc(size_t size)
{
    return is_refused() ? NULL : __libc_malloc(size);
}

void *calloc(size_t count, size_t size)
{
    return is_refused() ? NULL : __libc_calloc(count, size);
}

void *realloc(void *place, size_t size)
{
    return is_refused() ? NULL : __libc_realloc(place, size);
}

void *aligned_alloc(size_t alignment, size_t size)
{
    return is_refused() ? NULL : __libc_memalign(alignment, size);
}

int posix_memalign(void **place, size_t alignment, size_t size)
{
    void *made = is_refused() ? NULL : __libc_memalign(alignment, size);
    if (!made)
        return ENOMEM;
    *place = made;
    return 0;
}
