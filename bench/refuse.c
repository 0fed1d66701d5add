// Stands between a program and the C library, and lets one call go wrong. Loaded by LD_PRELOAD; bench/each_call.c names the call
// by what goes wrong, in GOES_WRONG, and by its number, from 1, in CALL. The number of such calls is written to the file
// descriptor 9 when the program ends.
#include <errno.h>
#include <fcntl.h>
#include <stdarg.h>
#include <stdio.h>
#include <stdlib.h>
#include <string.h>
#include <sys/syscall.h>
#include <unistd.h>

extern void *__libc_malloc(size_t);
extern void *__libc_realloc(void *, size_t);

static const char *wrong = "";
static unsigned long chosen, calls;

__attribute__((constructor)) static void begin(void) {
    if (getenv("GOES_WRONG")) wrong = getenv("GOES_WRONG");
    if (getenv("CALL")) chosen = strtoul(getenv("CALL"), 0, 10);
    calls = 0;
}

__attribute__((destructor)) static void end(void) {
    syscall(SYS_write, 9, &calls, sizeof calls);
}

// Whether this call, of which that may go wrong, is the chosen one.
static int is_chosen(const char *what) { return strcmp(wrong, what) == 0 && ++calls == chosen; }

void *malloc(size_t size) {
    if (is_chosen("memory")) {
        errno = ENOMEM;
        return 0;
    }
    return __libc_malloc(size);
}

void *realloc(void *old, size_t size) {
    if (is_chosen("memory")) {
        errno = ENOMEM;
        return 0;
    }
    return __libc_realloc(old, size);
}

int open(const char *path, int flags, ...) {
    va_list rest;
    va_start(rest, flags);
    int mode = va_arg(rest, int);
    va_end(rest);
    if (is_chosen("open")) {
        errno = EIO;
        return -1;
    }
    return syscall(SYS_openat, AT_FDCWD, path, flags, mode);
}

ssize_t read(int file, void *bytes, size_t count) {
    if (is_chosen("read")) {
        errno = EIO;
        return -1;
    }
    if (is_chosen("interrupted read")) {
        errno = EINTR;
        return -1;
    }
    if (is_chosen("shrinking file")) {
        // what is not read yet is cut off
        char path[64];
        snprintf(path, sizeof path, "/proc/self/fd/%d", file);
        if (truncate(path, lseek(file, 0, SEEK_CUR)) != 0) abort();
    }
    return syscall(SYS_read, file, bytes, is_chosen("short read") && count > 1 ? 1 : count);
}

ssize_t write(int file, const void *bytes, size_t count) {
    if (is_chosen("write")) {
        errno = EIO;
        return -1;
    }
    if (is_chosen("empty write")) return 0;
    if (is_chosen("interrupted write")) {
        errno = EINTR;
        return -1;
    }
    return syscall(SYS_write, file, bytes, is_chosen("short write") && count > 1 ? 1 : count);
}

ssize_t __write(int file, const void *bytes, size_t count) { return write(file, bytes, count); }
