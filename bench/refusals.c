/* Refuses one call of a program: a library to be preloaded, which bench/refusals builds.
 *
 * REFUSE_COUNTS  a file of one number of eight bytes for each sort, into which the calls are counted
 * REFUSE_SORT    memory, read, write, open, thread or random; without it no call is refused, and all are counted
 * REFUSE_NUMBER  which call of this sort is refused, from 1
 * REFUSE_ERROR   what `errno` is set to
 * REFUSE_PART    set: a read or write is not refused, and moves one byte alone
 *
 * The calls of the loader, before the constructor below, are neither counted nor refused. What the C library calls by itself, such as
 * the memory behind `malloc` or the stack of a thread, comes by no name that can be replaced: instead the calls that need it fail.
 */
#define _GNU_SOURCE
#include <dlfcn.h>
#include <errno.h>
#include <fcntl.h>
#include <pthread.h>
#include <stdarg.h>
#include <stdatomic.h>
#include <stdlib.h>
#include <string.h>
#include <sys/mman.h>
#include <sys/syscall.h>
#include <sys/uio.h>
#include <unistd.h>

enum { MEMORY, READ, WRITE, OPEN, THREAD, RANDOM, SORTS };

static const char *const names[SORTS] = {"memory", "read", "write", "open", "thread", "random"};
static _Atomic unsigned long *counts;
static unsigned long refused_number;
static int refused_sort = SORTS, refused_error, in_part;

extern void *__libc_malloc(size_t), *__libc_calloc(size_t, size_t), *__libc_realloc(void *, size_t), *__libc_memalign(size_t, size_t);

__attribute__((constructor)) static void begin(void)
{
    const char *file = getenv("REFUSE_COUNTS"), *sort = getenv("REFUSE_SORT");
    int place = file ? syscall(SYS_openat, AT_FDCWD, file, O_RDWR) : -1;
    if (place < 0)
        abort();
    for (int one = 0; sort && one < SORTS; one++)
        if (!strcmp(sort, names[one]))
            refused_sort = one;
    refused_number = refused_sort < SORTS ? strtoul(getenv("REFUSE_NUMBER"), NULL, 10) : 0;
    refused_error = refused_sort < SORTS ? atoi(getenv("REFUSE_ERROR")) : 0;
    in_part = getenv("REFUSE_PART") != NULL;
    void *shared = (void *)syscall(SYS_mmap, NULL, SORTS * sizeof *counts, PROT_READ | PROT_WRITE, MAP_SHARED, place, 0L);
    syscall(SYS_close, place);
    if (shared == MAP_FAILED)
        abort();
    counts = shared;
}

/* Counts a call, and tells whether it is the one. */
static int is_refused(int sort)
{
    if (!counts)
        return 0;
    unsigned long number = atomic_fetch_add(&counts[sort], 1) + 1;
    if (sort != refused_sort || number != refused_number)
        return 0;
    errno = refused_error;
    return 1;
}

void *malloc(size_t size) { return is_refused(MEMORY) ? NULL : __libc_malloc(size); }
void *calloc(size_t count, size_t size) { return is_refused(MEMORY) ? NULL : __libc_calloc(count, size); }
void *realloc(void *old, size_t size) { return is_refused(MEMORY) ? NULL : __libc_realloc(old, size); }
void *memalign(size_t align, size_t size) { return is_refused(MEMORY) ? NULL : __libc_memalign(align, size); }
void *aligned_alloc(size_t align, size_t size) { return memalign(align, size); }

int posix_memalign(void **place, size_t align, size_t size)
{
    void *made = memalign(align, size);
    if (!made)
        return ENOMEM;
    *place = made;
    return 0;
}

void *mmap(void *at, size_t length, int protection, int flags, int file, off_t offset)
{
    return is_refused(MEMORY) ? MAP_FAILED : (void *)syscall(SYS_mmap, at, length, protection, flags, file, offset);
}

/* How many bytes a read or write may move: all, one, or none where it is refused. */
static ssize_t allowed(int sort, size_t size)
{
    if (!is_refused(sort))
        return (ssize_t)size;
    return in_part ? size > 0 : -1;
}

ssize_t read(int file, void *bytes, size_t size)
{
    ssize_t most = allowed(READ, size);
    return most < 0 ? -1 : syscall(SYS_read, file, bytes, most);
}

ssize_t pread(int file, void *bytes, size_t size, off_t offset)
{
    ssize_t most = allowed(READ, size);
    return most < 0 ? -1 : syscall(SYS_pread64, file, bytes, most, offset);
}

ssize_t readv(int file, const struct iovec *parts, int count) { return is_refused(READ) ? -1 : syscall(SYS_readv, file, parts, count); }

ssize_t write(int file, const void *bytes, size_t size)
{
    ssize_t most = allowed(WRITE, size);
    return most < 0 ? -1 : syscall(SYS_write, file, bytes, most);
}

ssize_t __write(int file, const void *bytes, size_t size) { return write(file, bytes, size); }

ssize_t writev(int file, const struct iovec *parts, int count) { return is_refused(WRITE) ? -1 : syscall(SYS_writev, file, parts, count); }

int openat(int folder, const char *name, int flags, ...)
{
    va_list rest;
    va_start(rest, flags);
    int mode = va_arg(rest, int);
    va_end(rest);
    return is_refused(OPEN) ? -1 : syscall(SYS_openat, folder, name, flags, mode);
}

int open(const char *name, int flags, ...)
{
    va_list rest;
    va_start(rest, flags);
    int mode = va_arg(rest, int);
    va_end(rest);
    return openat(AT_FDCWD, name, flags, mode);
}

int getentropy(void *bytes, size_t size)
{
    return !is_refused(RANDOM) && syscall(SYS_getrandom, bytes, size, 0) == (ssize_t)size ? 0 : -1;
}

int pthread_create(pthread_t *thread, const pthread_attr_t *how, void *(*body)(void *), void *value)
{
    if (is_refused(THREAD))
        return refused_error;
    int (*create)(pthread_t *, const pthread_attr_t *, void *(*)(void *), void *) = dlsym(RTLD_NEXT, "pthread_create");
    return create(thread, how, body, value);
}
