// Loaded before the C library: refuses the calls of one kind, by REFUSE_KIND (alloc, read, write, open), from the one of number
// REFUSE_FROM, from 1 on, to that of REFUSE_TO, with the error REFUSE_ERROR. That one was refused is told on the descriptor
// REFUSE_TELL.
#define _GNU_SOURCE
#include <errno.h>
#include <fcntl.h>
#include <stdarg.h>
#include <stdlib.h>
#include <string.h>
#include <sys/syscall.h>
#include <sys/types.h>
#include <unistd.h>

extern void *__libc_malloc(size_t);
extern void *__libc_calloc(size_t, size_t);
extern void *__libc_realloc(void *, size_t);

static long number(const char *name) {
    const char *text = getenv(name);
    return text ? atol(text) : 0;
}

static int refused(const char *kind) {
    static long calls;
    const char *wanted = getenv("REFUSE_KIND");
    if (!wanted || strcmp(wanted, kind) != 0) return 0;
    calls++;
    if (calls < number("REFUSE_FROM") || calls > number("REFUSE_TO")) return 0;
    syscall(SYS_write, (int)number("REFUSE_TELL"), "!", 1);
    errno = (int)number("REFUSE_ERROR");
    return 1;
}

void *malloc(size_t size) { return refused("alloc") ? NULL : __libc_malloc(size); }
void *calloc(size_t count, size_t size) { return refused("alloc") ? NULL : __libc_calloc(count, size); }
void *realloc(void *old, size_t size) { return refused("alloc") ? NULL : __libc_realloc(old, size); }

ssize_t read(int from, void *buffer, size_t size) {
    return refused("read") ? -1 : syscall(SYS_read, from, buffer, size);
}

ssize_t write(int to, const void *bytes, size_t size) {
    return refused("write") ? -1 : syscall(SYS_write, to, bytes, size);
}

int open(const char *path, int flags, ...) {
    va_list rest;
    va_start(rest, flags);
    int mode = flags & O_CREAT ? va_arg(rest, int) : 0;
    va_end(rest);
    return refused("open") ? -1 : (int)syscall(SYS_openat, AT_FDCWD, path, flags, mode);
}
