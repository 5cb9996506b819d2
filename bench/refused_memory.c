/* An allocator to be preloaded that refuses one request for memory: the one with the number REFUSE,
   from 1; none where that isn't set. The file that COUNT names gets how many requests there were.
   For Linux and the GNU C library. */
#define _GNU_SOURCE
#include <errno.h>
#include <stdatomic.h>
#include <stddef.h>
#include <stdio.h>
#include <stdlib.h>
#include <sys/syscall.h>
#include <unistd.h>

void *__libc_malloc(size_t size);
void *__libc_calloc(size_t count, size_t size);
void *__libc_realloc(void *old, size_t size);
void *__libc_memalign(size_t alignment, size_t size);

static atomic_ulong requests;
static unsigned long number;
static int counting;

__attribute__((constructor)) static void begin(void) {
    const char *text = getenv("REFUSE");
    number = text ? strtoul(text, NULL, 10) : 0;
    counting = 1;
}

static void report(void) {
    const char *name = getenv("COUNT");
    FILE *file;
    counting = 0;
    file = name ? fopen(name, "w") : NULL;
    if (file) {
        fprintf(file, "%lu\n", atomic_load(&requests));
        fclose(file);
    }
}

__attribute__((destructor)) static void end(void) {
    report();
}

/* A program that ends by this runs no destructor. */
void _exit(int status) {
    report();
    syscall(SYS_exit_group, status);
    for (;;) {}
}

static int refused(void) {
    if (!counting || atomic_fetch_add(&requests, 1) + 1 != number) return 0;
    errno = ENOMEM;
    return 1;
}

void *malloc(size_t size) {
    return refused() ? NULL : __libc_malloc(size);
}

void *calloc(size_t count, size_t size) {
    return refused() ? NULL : __libc_calloc(count, size);
}

void *realloc(void *old, size_t size) {
    return refused() ? NULL : __libc_realloc(old, size);
}

void *memalign(size_t alignment, size_t size) {
    return refused() ? NULL : __libc_memalign(alignment, size);
}

void *aligned_alloc(size_t alignment, size_t size) {
    return memalign(alignment, size);
}

int posix_memalign(void **place, size_t alignment, size_t size) {
    void *block = memalign(alignment, size);
    if (!block) return ENOMEM;
    *place = block;
    return 0;
}
