/* Loaded before the C library, it lets one thread not be started: the one whose number, from 1 on, is in REFUSE. It then writes a line to
   standard error, so that whoever runs the program knows that it was met. */
#define _GNU_SOURCE
#include <dlfcn.h>
#include <errno.h>
#include <pthread.h>
#include <stdatomic.h>
#include <stdlib.h>
#include <unistd.h>

typedef int create(pthread_t *, const pthread_attr_t *, void *(*)(void *), void *);

static atomic_long starts;

int pthread_create(pthread_t *thread, const pthread_attr_t *how, void *(*run)(void *), void *argument) {
    const char *chosen = getenv("REFUSE");
    if (atomic_fetch_add(&starts, 1) + 1 == (chosen ? atol(chosen) : 0)) {
        if (write(2, "thread refused\n", 15) < 0) abort();
        return EAGAIN;
    }
    return ((create *)dlsym(RTLD_NEXT, "pthread_create"))(thread, how, run, argument);
}
