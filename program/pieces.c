/* A `read` that gives standard input in pieces of odd sizes and is interrupted every third time, and a `write` that takes standard output
   in such pieces, up to INTERRUPTED of them where that is defined, and is then interrupted: loaded before the C library's for a test. */
#define _GNU_SOURCE
#include <dlfcn.h>
#include <errno.h>
#include <unistd.h>

#ifndef INTERRUPTED
#define INTERRUPTED -1u
#endif

typedef ssize_t (*read_function)(int, void *, size_t);
typedef ssize_t (*write_function)(int, const void *, size_t);

static const size_t sizes[] = {1, 2, 19, 211, 3001, 40009, 65537};

static size_t at_most(size_t size, unsigned calls)
{
    size_t most = sizes[calls % (sizeof sizes / sizeof *sizes)];
    return size < most ? size : most;
}

ssize_t read(int file, void *buffer, size_t size)
{
    static unsigned calls;
    static read_function next;
    if (!next)
        *(void **)&next = dlsym(RTLD_NEXT, "read");
    if (file != STDIN_FILENO)
        return next(file, buffer, size);
    calls++;
    if (calls % 3 == 0) {
        errno = EINTR;
        return -1;
    }
    return next(file, buffer, at_most(size, calls));
}

ssize_t write(int file, const void *buffer, size_t size)
{
    static unsigned calls;
    static write_function next;
    if (!next)
        *(void **)&next = dlsym(RTLD_NEXT, "write");
    if (file != STDOUT_FILENO)
        return next(file, buffer, size);
    calls++;
    if (calls > INTERRUPTED) {
        errno = EINTR;
        return -1;
    }
    return next(file, buffer, at_most(size, calls));
}
