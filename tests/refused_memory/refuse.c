/* Loaded before the C library, it refuses requests for memory: the one whose number, from 1 on, is in REFUSE, and all from the number in
   REFUSE_FROM on. It writes a line to standard error for each, so that whoever runs it knows that the request was met. */
#include <errno.h>
#include <stdatomic.h>
#include <stdlib.h>
#include <unistd.h>

extern void *__libc_malloc(size_t size);
extern void *__libc_calloc(size_t count, size_t size);
extern void *__libc_realloc(void *block, size_t size);

static atomic_long requests;

static long number_in(const char *name) {
    const char *digits = getenv(name);
    return digits ? atol(digits) : 0;
}

static int refuses(void) {
    long number = atomic_fetch_add(&requests, 1) + 1, from = number_in("REFUSE_FROM");
    if (number != number_in("REFUSE") && (from == 0 || number < from)) return 0;
    if (write(2, "request refused\n", 16) < 0) abort();
    errno = ENOMEM;
    return 1;
}

void *malloc(size_t size) { return refuses() ? NULL : __libc_malloc(size); }
void *calloc(size_t count, size_t size) { return refuses() ? NULL : __libc_calloc(count, size); }
void *realloc(void *block, size_t size) { return refuses() ? NULL : __libc_realloc(block, size); }
