/* Preloaded into a program, it makes one call of a kind fail, or move a single byte. The
 * environment says which:
 *
 *   FAULT_KIND   alloc, read, write, short-read or short-write
 *   FAULT_AT     the number of the call, from 1; 0 for none
 *   FAULT_COUNT  a file to which the number of such calls is written at the end
 */
#define _GNU_SOURCE
#include <dlfcn.h>
#include <errno.h>
#include <fcntl.h>
#include <stddef.h>
#include <stdlib.h>
#include <string.h>
#include <unistd.h>

enum { NONE, ALLOC, READ, WRITE, SHORT_READ, SHORT_WRITE };

static int kind, begun;
static unsigned long at, count;

/* Memory requested before the real calls are known. */
static char early[1 << 16];
static size_t early_used;

static void *real(const char *name) { return dlsym(RTLD_NEXT, name); }

__attribute__((constructor)) static void begin(void)
{
    static const char *const names[] = {
        "", "alloc", "read", "write", "short-read", "short-write"
    };
    const char *wanted = getenv("FAULT_KIND"), *number = getenv("FAULT_AT");
    for (int i = ALLOC; wanted && i <= SHORT_WRITE; i++)
        if (strcmp(wanted, names[i]) == 0)
            kind = i;
    at = number ? strtoul(number, NULL, 10) : 0;
    begun = 1;
}

/* Whether this call of the kind is the one. */
static int is_meant(int this)
{
    return begun && this == kind && ++count == at;
}

__attribute__((destructor)) static void end(void)
{
    const char *path = getenv("FAULT_COUNT");
    char digits[24];
    size_t used = sizeof digits;
    begun = 0;
    if (!path)
        return;
    do
        digits[--used] = '0' + count % 10;
    while (count /= 10);
    int file = open(path, O_WRONLY | O_CREAT | O_TRUNC, 0600);
    ssize_t (*write_all)(int, const void *, size_t) = real("write");
    if (file >= 0 && write_all(file, digits + used, sizeof digits - used) > 0)
        close(file);
}

static void *from_early(size_t size)
{
    size_t from = (early_used + 15) & ~(size_t)15;
    if (size > sizeof early - from)
        return NULL;
    early_used = from + size;
    return early + from;
}

static int is_early(void *at)
{
    return (char *)at >= early && (char *)at < early + sizeof early;
}

void *malloc(size_t size)
{
    static void *(*next)(size_t);
    static int looking;
    if (is_meant(ALLOC)) {
        errno = ENOMEM;
        return NULL;
    }
    if (!next) {
        if (looking)
            return from_early(size);
        looking = 1;
        next = real("malloc");
    }
    return next(size);
}

void *calloc(size_t number, size_t size)
{
    static void *(*next)(size_t, size_t);
    static int looking;
    if (is_meant(ALLOC)) {
        errno = ENOMEM;
        return NULL;
    }
    if (!next) {
        if (looking)
            return from_early(number * size);
        looking = 1;
        next = real("calloc");
    }
    return next(number, size);
}

void *realloc(void *old, size_t size)
{
    static void *(*next)(void *, size_t);
    if (is_meant(ALLOC)) {
        errno = ENOMEM;
        return NULL;
    }
    if (!next)
        next = real("realloc");
    return next(old, size);
}

void *aligned_alloc(size_t alignment, size_t size)
{
    static void *(*next)(size_t, size_t);
    if (is_meant(ALLOC)) {
        errno = ENOMEM;
        return NULL;
    }
    if (!next)
        next = real("aligned_alloc");
    return next(alignment, size);
}

int posix_memalign(void **into, size_t alignment, size_t size)
{
    static int (*next)(void **, size_t, size_t);
    if (is_meant(ALLOC))
        return ENOMEM;
    if (!next)
        next = real("posix_memalign");
    return next(into, alignment, size);
}

void free(void *old)
{
    static void (*next)(void *);
    if (is_early(old))
        return;
    if (!next)
        next = real("free");
    next(old);
}

ssize_t read(int file, void *into, size_t size)
{
    static ssize_t (*next)(int, void *, size_t);
    if (!next)
        next = real("read");
    if (is_meant(READ)) {
        errno = EIO;
        return -1;
    }
    return next(file, into, size > 1 && is_meant(SHORT_READ) ? 1 : size);
}

ssize_t write(int file, const void *from, size_t size)
{
    static ssize_t (*next)(int, const void *, size_t);
    if (!next)
        next = real("write");
    /* Standard error gets the reason for a status, and does not change it. */
    if (file == STDERR_FILENO)
        return next(file, from, size);
    if (is_meant(WRITE)) {
        errno = EIO;
        return -1;
    }
    return next(file, from, size > 1 && is_meant(SHORT_WRITE) ? 1 : size);
}
