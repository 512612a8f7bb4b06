/* Preloaded: adds a byte to the file that THREADS_MARK names for each thread that the program starts. */
#define _GNU_SOURCE
#include <dlfcn.h>
#include <fcntl.h>
#include <pthread.h>
#include <stdlib.h>
#include <unistd.h>

enum { CANT_REPORT = 3 };
typedef int creates(pthread_t *, const pthread_attr_t *, void *(*)(void *), void *);

int pthread_create(pthread_t *thread, const pthread_attr_t *attributes, void *(*start)(void *), void *given) {
    creates *next = (creates *)dlsym(RTLD_NEXT, "pthread_create");
    int mark = open(getenv("THREADS_MARK"), O_WRONLY | O_CREAT | O_APPEND, 0600);
    if (mark < 0 || write(mark, "t", 1) != 1) _exit(CANT_REPORT);
    close(mark);
    return next(thread, attributes, start, given);
}
