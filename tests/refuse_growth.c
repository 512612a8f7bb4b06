/* Loaded before the C library: refuses growths of memory, of which REFUSED_GROWTH numbers the first and REFUSED_COUNT says how many in a row.
   For each it writes a byte to the end of the file that REFUSED_MARK names. */
#include <fcntl.h>
#include <stddef.h>
#include <stdlib.h>
#include <unistd.h>

extern void *__libc_malloc(size_t size);
extern void *__libc_realloc(void *old, size_t size);

/* how many growths there were, the number of the first one to refuse, and how many are refused */
static long growths, first, count;
static int mark = -1;

static long number_of(const char *name) {
    const char *number = getenv(name);
    return number ? atol(number) : 0;
}

__attribute__((constructor)) static void read_environment(void) {
    const char *path = getenv("REFUSED_MARK");
    if (path) mark = open(path, O_CREAT | O_APPEND | O_WRONLY, 0600);
    growths = 0;
    first = number_of("REFUSED_GROWTH");
    count = number_of("REFUSED_COUNT");
}

/* Threads grow side by side, and what one of them is refused counts for all. */
static int is_refused(void) {
    long number = __atomic_add_fetch(&growths, 1, __ATOMIC_SEQ_CST);
    if (number < first || number >= first + count) return 0;
    return mark < 0 || write(mark, "x", 1) == 1;
}

void *malloc(size_t size) {
    return is_refused() ? NULL : __libc_malloc(size);
}

void *realloc(void *old, size_t size) {
    return is_refused() ? NULL : __libc_realloc(old, size);
}
