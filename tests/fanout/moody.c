/* Loaded before the C library, it stands between a program and its files, apart from standard error: by MOODY=SEED each `read` and
   each `write` moves some of the bytes only, is now and then interrupted, and at a standard stream told that it doesn't block.
   ODD_ERROR=N has each `write` to standard output fail with the error of that number, and READ_FAILS=K has `read` of standard input fail
   with EIO after K bytes. */
#define _GNU_SOURCE
#include <errno.h>
#include <stdlib.h>
#include <sys/syscall.h>
#include <unistd.h>

static unsigned long draws;
static size_t has_read;

/* A number that is drawn, below most. Several threads may draw the same. */
static unsigned long draw(const char *seed, unsigned long most) {
    unsigned long state = strtoul(seed, NULL, 10) * 1000003 + __atomic_add_fetch(&draws, 1, __ATOMIC_RELAXED);
    state = (state ^ (state >> 30)) * 0xbf58476d1ce4e5b9;
    state = (state ^ (state >> 27)) * 0x94d049bb133111eb;
    return (state ^ (state >> 31)) % most;
}

/* How many bytes are moved of so many; -1 if the call fails, and errno says why. */
static ssize_t moved(int file, size_t size) {
    const char *seed = getenv("MOODY");
    if (!seed || file == 2 || size == 0) return size;
    switch (draw(seed, 8)) {
    case 0: errno = EINTR; return -1;
    case 1: if (file > 1) return 1; errno = EAGAIN; return -1;
    case 2: return 1;
    case 3: return size;
    default: return 1 + draw(seed, size);
    }
}

ssize_t read(int file, void *buffer, size_t size) {
    const char *fails = getenv("READ_FAILS");
    ssize_t most = moved(file, size);
    if (most < 0) return -1;
    if (fails && file == 0) {
        size_t left = strtoul(fails, NULL, 10) - has_read;
        if (left == 0) {
            errno = EIO;
            return -1;
        }
        if (left < (size_t)most) most = left;
    }
    ssize_t count = syscall(SYS_read, file, buffer, most);
    if (file == 0 && count > 0) has_read += count;
    return count;
}

ssize_t write(int file, const void *buffer, size_t size) {
    const char *odd = getenv("ODD_ERROR");
    if (odd && file == 1) {
        errno = atoi(odd);
        return -1;
    }
    ssize_t most = moved(file, size);
    return most < 0 ? -1 : syscall(SYS_write, file, buffer, most);
}
