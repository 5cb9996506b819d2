/* To be preloaded: each call that opens, writes to, measures or cuts a file waits before it, for up
   to LATE microseconds, so that the calls of two programs mix. For Linux and the GNU C library. */
#define _GNU_SOURCE
#include <fcntl.h>
#include <stdarg.h>
#include <stdlib.h>
#include <sys/stat.h>
#include <sys/syscall.h>
#include <time.h>
#include <unistd.h>

static unsigned int state;
static long most;

__attribute__((constructor)) static void begin(void) {
    const char *text = getenv("LATE");
    struct timespec now;
    clock_gettime(CLOCK_REALTIME, &now);
    state = (unsigned int)now.tv_nsec ^ (unsigned int)getpid() * 2654435761u;
    most = text ? atol(text) : 0;
}

static void wait(void) {
    struct timespec some = {0, 0};
    if (most <= 0) return;
    some.tv_nsec = rand_r(&state) % most * 1000;
    nanosleep(&some, NULL);
}

int open(const char *name, int how, ...) {
    va_list rest;
    int mode;
    va_start(rest, how);
    mode = how & O_CREAT ? va_arg(rest, int) : 0;
    va_end(rest);
    wait();
    return syscall(SYS_openat, AT_FDCWD, name, how, mode);
}

int open64(const char *name, int how, ...) __attribute__((alias("open")));

ssize_t write(int file, const void *bytes, size_t count) {
    wait();
    return syscall(SYS_write, file, bytes, count);
}

int statx(int at, const char *name, int how, unsigned int what, struct statx *is) {
    wait();
    return syscall(SYS_statx, at, name, how, what, is);
}

int ftruncate(int file, off_t size) {
    wait();
    return syscall(SYS_ftruncate, file, size);
}

int ftruncate64(int file, off_t size) __attribute__((alias("ftruncate")));
