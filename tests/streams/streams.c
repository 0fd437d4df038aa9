/* Loaded before the C library, it stands between a program and its standard streams. `read` gives one byte at a time, and
   `write` takes one byte at a time. What else they do is in the environment, each a number of bytes:
     READ_FAILS=K    after K bytes `read` fails, with EIO
     WRITE_FAILS=K   after K bytes `write` fails, with EIO
     WRITE_FAILS_ONCE=K  after K bytes one call of `write` fails, with EIO, and the later ones do not
     WRITE_STOPS=K   after K bytes `write` takes nothing more, and answers 0
     INTERRUPTED=1   each call is interrupted once before it does anything, with EINTR
   In the file that STREAMS_LOG names it writes a letter for each call: r or w, and R or W where the call was interrupted. */
#define _GNU_SOURCE
#include <errno.h>
#include <fcntl.h>
#include <stdlib.h>
#include <sys/syscall.h>
#include <unistd.h>

struct stream {
    long passed;
    int is_interrupted;
    int has_failed;
};

static struct stream input, output;

/* The number that the environment gives, or -1. */
static long limit(const char *name) {
    const char *text = getenv(name);
    return text ? atol(text) : -1;
}

static void note(char letter) {
    static int log = -1;
    const char *file = getenv("STREAMS_LOG");
    if (log < 0 && file) log = open(file, O_WRONLY | O_CREAT | O_APPEND | O_CLOEXEC, 0600);
    if (log >= 0 && syscall(SYS_write, log, &letter, 1) != 1) abort();
}

/* Whether this call is interrupted: each second one is. */
static int interrupts(struct stream *stream) {
    if (limit("INTERRUPTED") < 0) return 0;
    stream->is_interrupted = !stream->is_interrupted;
    return stream->is_interrupted;
}

static ssize_t failed(int why) {
    errno = why;
    return -1;
}

ssize_t read(int file, void *buffer, size_t size) {
    if (file != 0 || size == 0) return syscall(SYS_read, file, buffer, size);
    if (interrupts(&input)) {
        note('R');
        return failed(EINTR);
    }
    note('r');
    if (input.passed == limit("READ_FAILS")) return failed(EIO);
    ssize_t count = syscall(SYS_read, file, buffer, 1);
    if (count > 0) input.passed += count;
    return count;
}

ssize_t write(int file, const void *buffer, size_t size) {
    if (file != 1 || size == 0) return syscall(SYS_write, file, buffer, size);
    if (interrupts(&output)) {
        note('W');
        return failed(EINTR);
    }
    note('w');
    if (output.passed == limit("WRITE_FAILS")) return failed(EIO);
    if (output.passed == limit("WRITE_FAILS_ONCE") && !output.has_failed) {
        output.has_failed = 1;
        return failed(EIO);
    }
    if (output.passed == limit("WRITE_STOPS")) return 0;
    ssize_t count = syscall(SYS_write, file, buffer, 1);
    if (count > 0) output.passed += count;
    return count;
}
