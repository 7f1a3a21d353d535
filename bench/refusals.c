/* Preloaded into a program (LD_PRELOAD), refuses one of its calls: REFUSE=KIND:N names the Nth of a kind. Once that is reached, the file that NOTE
   names is made.

   alloc  an allocation fails
   io     a read or a write fails
   file   a file is not opened, looked at, renamed, removed or given its permissions
   short  a read or a write of several bytes moves one
   again  a read or a write is interrupted, so that it is to be called again */
#define _GNU_SOURCE
#include <dlfcn.h>
#include <errno.h>
#include <fcntl.h>
#include <stdarg.h>
#include <stdio.h>
#include <stdlib.h>
#include <string.h>
#include <sys/stat.h>
#include <sys/syscall.h>
#include <unistd.h>

extern void *__libc_malloc(size_t);
extern void *__libc_calloc(size_t, size_t);
extern void *__libc_realloc(void *, size_t);

static const char *kind, *note;
static long number, seen;

__attribute__((constructor)) static void begin(void) {
    const char *asked = getenv("REFUSE");
    note = getenv("NOTE");
    if (!asked || !note) return;
    number = atol(strchr(asked, ':') + 1);
    kind = asked;
}

/* Whether a call of this kind is the one to be refused. */
static int is_next(const char *name) {
    if (!kind || strncmp(kind, name, strlen(name)) || ++seen != number) return 0;
    syscall(SYS_close, syscall(SYS_openat, AT_FDCWD, note, O_CREAT | O_WRONLY, 0600));
    return 1;
}

static int refuses(const char *name, int why) {
    if (!is_next(name)) return 0;
    errno = why;
    return 1;
}

void *malloc(size_t n) { return refuses("alloc", ENOMEM) ? NULL : __libc_malloc(n); }
void *calloc(size_t n, size_t size) { return refuses("alloc", ENOMEM) ? NULL : __libc_calloc(n, size); }
void *realloc(void *p, size_t n) { return refuses("alloc", ENOMEM) ? NULL : __libc_realloc(p, n); }

ssize_t read(int fd, void *bytes, size_t n) {
    if (refuses("io", EIO) || refuses("again", EINTR)) return -1;
    return syscall(SYS_read, fd, bytes, n > 1 && is_next("short") ? 1 : n);
}

ssize_t write(int fd, const void *bytes, size_t n) {
    if (refuses("io", ENOSPC) || refuses("again", EINTR)) return -1;
    return syscall(SYS_write, fd, bytes, n > 1 && is_next("short") ? 1 : n);
}

ssize_t __write(int fd, const void *bytes, size_t n) { return write(fd, bytes, n); }

#define FORWARD(result, name, arguments, ...)                                        \
    result name arguments {                                                          \
        static result(*real) arguments;                                              \
        if (refuses("file", EIO)) return -1;                                         \
        if (!real) *(void **)&real = dlsym(RTLD_NEXT, #name);                        \
        return real(__VA_ARGS__);                                                    \
    }

FORWARD(int, statx, (int fd, const char *path, int flags, unsigned mask, struct statx *found), fd, path, flags, mask, found)
FORWARD(int, chmod, (const char *path, mode_t mode), path, mode)
FORWARD(int, rename, (const char *from, const char *to), from, to)
FORWARD(int, unlink, (const char *path), path)
FORWARD(ssize_t, readlink, (const char *path, char *found, size_t n), path, found, n)

int open(const char *path, int flags, ...) {
    va_list rest;
    va_start(rest, flags);
    mode_t mode = va_arg(rest, mode_t);
    va_end(rest);
    return refuses("file", EIO) ? -1 : (int)syscall(SYS_openat, AT_FDCWD, path, flags, mode);
}
