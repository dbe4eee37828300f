// Answers reads of standard input and writes to standard output otherwise than the system would, in a program that runs
// with this library before it.
//
// STANDARD_SIZE=N: each moves N bytes at most. STANDARD_INPUT_INTERRUPTS=N, STANDARD_OUTPUT_INTERRUPTS=N: each is
// interrupted so often before it is made. STANDARD_READ=N, STANDARD_WRITE=N: the one of that number fails with
// STANDARD_ERROR, counted from 1 and without those that were interrupted.
#define _GNU_SOURCE
#include <dlfcn.h>
#include <errno.h>
#include <stdint.h>
#include <stdlib.h>
#include <sys/uio.h>
#include <unistd.h>

struct stream {
    int file;
    uint64_t interrupts;
    uint64_t failing;
    uint64_t calls;
    uint64_t interrupted;
};

static struct stream input = {.file = 0};
static struct stream output = {.file = 1};
static uint64_t most_bytes;
static int error_number;

static uint64_t number_of(const char *name) {
    const char *text = getenv(name);
    return text ? strtoull(text, NULL, 10) : 0;
}

__attribute__((constructor)) static void begin(void) {
    most_bytes = number_of("STANDARD_SIZE");
    error_number = (int)number_of("STANDARD_ERROR");
    input.interrupts = number_of("STANDARD_INPUT_INTERRUPTS");
    input.failing = number_of("STANDARD_READ");
    output.interrupts = number_of("STANDARD_OUTPUT_INTERRUPTS");
    output.failing = number_of("STANDARD_WRITE");
}

// Whether this call is turned away, with its error.
static int turns_away(struct stream *stream, int file) {
    if (file != stream->file) return 0;
    if (stream->interrupted < stream->interrupts) {
        stream->interrupted++;
        errno = EINTR;
        return 1;
    }
    stream->interrupted = 0;
    stream->calls++;
    if (stream->calls != stream->failing) return 0;
    errno = error_number;
    return 1;
}

static size_t some_of(struct stream *stream, int file, size_t size) {
    return file == stream->file && most_bytes > 0 && size > most_bytes ? most_bytes : size;
}

ssize_t read(int file, void *room, size_t size) {
    static ssize_t (*real)(int, void *, size_t);
    if (!real) real = dlsym(RTLD_NEXT, "read");
    if (turns_away(&input, file)) return -1;
    return real(file, room, some_of(&input, file, size));
}

ssize_t write(int file, const void *piece, size_t size) {
    static ssize_t (*real)(int, const void *, size_t);
    if (!real) real = dlsym(RTLD_NEXT, "write");
    if (turns_away(&output, file)) return -1;
    return real(file, piece, some_of(&output, file, size));
}

// Two pieces of standard output go out as a write of the first one that has a byte would.
ssize_t writev(int file, const struct iovec *pieces, int count) {
    static ssize_t (*real)(int, const struct iovec *, int);
    if (!real) real = dlsym(RTLD_NEXT, "writev");
    if (file != output.file) return real(file, pieces, count);
    for (int i = 0; i < count; i++)
        if (pieces[i].iov_len > 0) return write(file, pieces[i].iov_base, pieces[i].iov_len);
    return write(file, "", 0);
}
