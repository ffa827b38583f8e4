/* Stands before the C library's calls that open, read and write, and lets them fail in the middle.

   WRITE_FAILS=N     standard output takes N bytes, and every later write of it fails
   READ_FAILS=N      the file under READ_PATH gives N bytes, and every later read of it fails; the path - is standard input
   AT_MOST=N         a read or a write moves at most N bytes

   A file is known by its whole path, as the program opens it. */
#define _GNU_SOURCE
#include <errno.h>
#include <fcntl.h>
#include <stdarg.h>
#include <stdlib.h>
#include <string.h>
#include <sys/syscall.h>
#include <sys/uio.h>
#include <unistd.h>

#define NO_LIMIT (1L << 60)

static long number(const char *name) {
    const char *word = getenv(name);
    return word ? atol(word) : NO_LIMIT;
}

/* The file whose reads fail, and the bytes that it and standard output moved. */
static int failing = -1;
static long given, taken;

static int is_failing(int file) {
    const char *path = getenv("READ_PATH");
    return path && (strcmp(path, "-") == 0 ? file == 0 : file == failing);
}

/* How many of these bytes a call may move, where so many are left before it fails; -1 where it fails. */
static long allowed(size_t count, long left) {
    if (left <= 0) {
        errno = EIO;
        return -1;
    }
    long most = number("AT_MOST");
    long some = (long)count < left ? (long)count : left;
    return some < most ? some : most;
}

static int opened(int file, const char *path) {
    const char *wanted = getenv("READ_PATH");
    if (file >= 0 && wanted && strcmp(path, wanted) == 0) {
        failing = file;
        given = 0;
    }
    return file;
}

int openat(int folder, const char *path, int flags, ...) {
    va_list rest;
    va_start(rest, flags);
    int mode = flags & O_CREAT ? va_arg(rest, int) : 0;
    va_end(rest);
    return opened(syscall(SYS_openat, folder, path, flags, mode), path);
}

int open(const char *path, int flags, ...) {
    va_list rest;
    va_start(rest, flags);
    int mode = flags & O_CREAT ? va_arg(rest, int) : 0;
    va_end(rest);
    return opened(syscall(SYS_openat, AT_FDCWD, path, flags, mode), path);
}

int open64(const char *path, int flags, ...) __attribute__((alias("open")));
int openat64(int folder, const char *path, int flags, ...) __attribute__((alias("openat")));

int close(int file) {
    if (file == failing) failing = -1;
    return syscall(SYS_close, file);
}

ssize_t read(int file, void *bytes, size_t count) {
    if (count == 0) return syscall(SYS_read, file, bytes, count);
    long most = allowed(count, is_failing(file) ? number("READ_FAILS") - given : NO_LIMIT);
    if (most < 0) return -1;
    ssize_t moved = syscall(SYS_read, file, bytes, most);
    if (moved > 0 && is_failing(file)) given += moved;
    return moved;
}

ssize_t write(int file, const void *bytes, size_t count) {
    if (count == 0) return syscall(SYS_write, file, bytes, count);
    long most = allowed(count, file == 1 ? number("WRITE_FAILS") - taken : NO_LIMIT);
    if (most < 0) return -1;
    ssize_t moved = syscall(SYS_write, file, bytes, most);
    if (moved > 0 && file == 1) taken += moved;
    return moved;
}

ssize_t __write(int file, const void *bytes, size_t count) { return write(file, bytes, count); }
ssize_t __read(int file, void *bytes, size_t count) { return read(file, bytes, count); }

/* As one write or read of the first part that is not empty. */
ssize_t writev(int file, const struct iovec *parts, int count) {
    for (int i = 0; i < count; i++)
        if (parts[i].iov_len > 0) return write(file, parts[i].iov_base, parts[i].iov_len);
    return 0;
}

ssize_t readv(int file, const struct iovec *parts, int count) {
    for (int i = 0; i < count; i++)
        if (parts[i].iov_len > 0) return read(file, parts[i].iov_base, parts[i].iov_len);
    return 0;
}
