/* Preloaded: counts the bytes that the program holds on the heap, and reports at each read of standard input how many there are
   and how many there were at most since the read before: `heap NOW PEAK`; and at its end too if HEAP_AT_END is set. */
#define _GNU_SOURCE
#include <dlfcn.h>
#include <errno.h>
#include <malloc.h>
#include <stdio.h>
#include <stdlib.h>
#include <unistd.h>

enum { CANT_REPORT = 3 };
static size_t now, peak;

static void *gained(void *block) {
    if (block) {
        now += malloc_usable_size(block);
        if (now > peak) peak = now;
    }
    return block;
}

extern void *__libc_malloc(size_t), *__libc_calloc(size_t, size_t), *__libc_realloc(void *, size_t), *__libc_memalign(size_t, size_t);
extern void __libc_free(void *);

void *malloc(size_t size) { return gained(__libc_malloc(size)); }
void *calloc(size_t count, size_t size) { return gained(__libc_calloc(count, size)); }
void *memalign(size_t align, size_t size) { return gained(__libc_memalign(align, size)); }
void *aligned_alloc(size_t align, size_t size) { return gained(__libc_memalign(align, size)); }

int posix_memalign(void **block, size_t align, size_t size) {
    *block = gained(__libc_memalign(align, size));
    return *block ? 0 : ENOMEM;
}

void free(void *block) {
    if (block) now -= malloc_usable_size(block);
    __libc_free(block);
}

void *realloc(void *block, size_t size) {
    size_t had = block ? malloc_usable_size(block) : 0;
    void *moved = __libc_realloc(block, size);
    if (moved) {
        /* (both blocks are held while the bytes are moved) */
        size_t has = malloc_usable_size(moved);
        if (moved != block && now + has > peak) peak = now + has;
        now = now - had + has;
        if (now > peak) peak = now;
    }
    return moved;
}

static void report(void) {
    char text[64];
    int length = snprintf(text, sizeof text, "heap %zu %zu\n", now, peak);
    if (write(STDERR_FILENO, text, (size_t)length) < 0) _exit(CANT_REPORT);
    peak = now;
}

ssize_t read(int from, void *bytes, size_t count) {
    static ssize_t (*next)(int, void *, size_t);
    if (!next) next = (ssize_t (*)(int, void *, size_t))dlsym(RTLD_NEXT, "read");
    if (from == STDIN_FILENO) report();
    return next(from, bytes, count);
}

__attribute__((destructor)) static void at_end(void) {
    if (getenv("HEAP_AT_END")) report();
}
