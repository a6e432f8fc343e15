// Makes one call of a kind fail, in a program that this is loaded into (LD_PRELOAD): the FAIL_AT-th of those that FAIL_KIND
// names, counted from 1. The kinds are `memory` (malloc, realloc), `open`, `read`, `write` and `seek`. Where FAIL_AT is 0,
// none fails. At the end, the file that FAIL_COUNT names holds how many such calls there were, and for how many bytes those of
// `memory` asked.
#define _GNU_SOURCE
#include <errno.h>
#include <fcntl.h>
#include <stdarg.h>
#include <stdio.h>
#include <stdlib.h>
#include <string.h>
#include <sys/syscall.h>
#include <unistd.h>

extern void *__libc_malloc(size_t);
extern void *__libc_realloc(void *, size_t);

static const char *kind;
static long fail_at;
static long seen;
static long bytes_asked;

__attribute__((constructor)) static void begin(void) {
    const char *at = getenv("FAIL_AT");
    fail_at = at ? atol(at) : 0;
    kind = getenv("FAIL_KIND");
}

// Whether this call is the one that fails.
static int fails(const char *of, int error) {
    if (kind == NULL || strcmp(kind, of) != 0) return 0;
    if (__atomic_add_fetch(&seen, 1, __ATOMIC_SEQ_CST) != fail_at) return 0;
    errno = error;
    return 1;
}

static int lacks(size_t size) {
    __atomic_add_fetch(&bytes_asked, size, __ATOMIC_SEQ_CST);
    return fails("memory", ENOMEM);
}

void *malloc(size_t size) { return lacks(size) ? NULL : __libc_malloc(size); }
void *realloc(void *old, size_t size) { return lacks(size) ? NULL : __libc_realloc(old, size); }

int open(const char *name, int flags, ...) {
    va_list rest;
    va_start(rest, flags);
    int mode = flags & O_CREAT ? va_arg(rest, int) : 0;
    va_end(rest);
    return fails("open", EIO) ? -1 : syscall(SYS_openat, AT_FDCWD, name, flags, mode);
}

ssize_t read(int file, void *buffer, size_t size) { return fails("read", EIO) ? -1 : syscall(SYS_read, file, buffer, size); }
ssize_t write(int file, const void *bytes, size_t size) { return fails("write", EIO) ? -1 : syscall(SYS_write, file, bytes, size); }
ssize_t __write(int file, const void *bytes, size_t size) { return write(file, bytes, size); }
off_t lseek(int file, off_t at, int from) { return fails("seek", EIO) ? -1 : syscall(SYS_lseek, file, at, from); }

void _exit(int status) {
    const char *name = getenv("FAIL_COUNT");
    int file = name == NULL ? -1 : syscall(SYS_openat, AT_FDCWD, name, O_WRONLY | O_CREAT | O_TRUNC, 0644);
    if (file >= 0) dprintf(file, "%ld %ld\n", seen, bytes_asked);
    syscall(SYS_exit_group, status);
    __builtin_unreachable();
}
