// Answers calls at sockets otherwise than the system would, in a program that runs with this library before it.
//
// CALLS_SEED=N: by chance a read or a write is cut short, is interrupted, or says that it would have to wait (where
// calls don't wait), and an accept is interrupted or finds the connection given up. CALLS_FAIL=N with CALLS_ERROR=E:
// call N fails with that error, and where CALLS_FAIL_ON is set every later one too. How many calls there were stands in
// the file CALLS_COUNT, in 64 bits.
#define _GNU_SOURCE
#include <dlfcn.h>
#include <errno.h>
#include <fcntl.h>
#include <stdarg.h>
#include <stdint.h>
#include <stdlib.h>
#include <sys/ioctl.h>
#include <sys/mman.h>
#include <sys/socket.h>
#include <sys/uio.h>

#define MOST_FILES 4096

static uint64_t own_count;
static uint64_t *count = &own_count;
static uint64_t state;
static uint64_t failing;
static int error_number;
static int fails_on;
static char is_quick[MOST_FILES];

static uint64_t number_of(const char *name) {
    const char *text = getenv(name);
    return text ? strtoull(text, NULL, 10) : 0;
}

__attribute__((constructor)) static void begin(void) {
    const char *name = getenv("CALLS_COUNT");
    int file = name ? open(name, O_RDWR) : -1;
    if (file >= 0) {
        void *shared = mmap(NULL, sizeof *count, PROT_READ | PROT_WRITE, MAP_SHARED, file, 0);
        if (shared != MAP_FAILED) count = shared;
    }
    *count = 0;
    state = number_of("CALLS_SEED");
    failing = number_of("CALLS_FAIL");
    error_number = (int)number_of("CALLS_ERROR");
    fails_on = getenv("CALLS_FAIL_ON") != NULL;
}

// Whether this call is to fail. It counts it.
static int fails(void) {
    uint64_t call = __atomic_add_fetch(count, 1, __ATOMIC_SEQ_CST);
    if (failing == 0 || (call != failing && !(fails_on && call > failing))) return 0;
    errno = error_number;
    return 1;
}

// A number below the limit, by chance: 0 where there is no seed.
static uint64_t chance(uint64_t limit) {
    if (state == 0) return 0;
    state = state * 6364136223846793005u + 1442695040888963407u;
    return (state >> 33) % limit;
}

// Whether a call at this file is turned away by chance.
static int turns_away(int file) {
    uint64_t kind = chance(8);
    if (kind == 1) {
        errno = EINTR;
        return 1;
    }
    if (kind == 2 && file >= 0 && file < MOST_FILES && is_quick[file]) {
        errno = EAGAIN;
        return 1;
    }
    return 0;
}

// So many bytes, or by chance fewer, but one at least.
static size_t some_of(size_t size) {
    if (size < 2 || chance(2) == 0) return size;
    return 1 + chance(chance(2) ? size : 4) % size;
}

ssize_t recv(int file, void *room, size_t size, int flags) {
    static ssize_t (*real)(int, void *, size_t, int);
    if (!real) real = dlsym(RTLD_NEXT, "recv");
    if (fails() || turns_away(file)) return -1;
    return real(file, room, some_of(size), flags);
}

ssize_t send(int file, const void *piece, size_t size, int flags) {
    static ssize_t (*real)(int, const void *, size_t, int);
    if (!real) real = dlsym(RTLD_NEXT, "send");
    if (fails() || turns_away(file)) return -1;
    return real(file, piece, some_of(size), flags);
}

ssize_t sendmsg(int file, const struct msghdr *message, int flags) {
    static ssize_t (*real)(int, const struct msghdr *, int);
    if (!real) real = dlsym(RTLD_NEXT, "sendmsg");
    if (fails() || turns_away(file)) return -1;
    size_t size = 0;
    for (size_t i = 0; i < message->msg_iovlen; i++) size += message->msg_iov[i].iov_len;
    size_t some = some_of(size);
    struct iovec parts[16];
    struct msghdr shorter = *message;
    if (some == size || message->msg_iovlen > 16) return real(file, message, flags);
    shorter.msg_iov = parts;
    shorter.msg_iovlen = 0;
    for (size_t i = 0; i < message->msg_iovlen && some > 0; i++) {
        parts[i] = message->msg_iov[i];
        if (parts[i].iov_len > some) parts[i].iov_len = some;
        some -= parts[i].iov_len;
        shorter.msg_iovlen++;
    }
    return real(file, &shorter, flags);
}

int accept4(int file, struct sockaddr *address, socklen_t *size, int flags) {
    static int (*real)(int, struct sockaddr *, socklen_t *, int);
    if (!real) real = dlsym(RTLD_NEXT, "accept4");
    uint64_t kind = chance(4);
    if (kind == 1 || kind == 2) {
        errno = kind == 1 ? EINTR : ECONNABORTED;
        return -1;
    }
    int stream = real(file, address, size, flags);
    if (stream >= 0 && stream < MOST_FILES) is_quick[stream] = 0;
    return stream;
}

int ioctl(int file, unsigned long request, ...) {
    static int (*real)(int, unsigned long, void *);
    if (!real) real = dlsym(RTLD_NEXT, "ioctl");
    va_list more;
    va_start(more, request);
    void *argument = va_arg(more, void *);
    va_end(more);
    if (request != FIONBIO) return real(file, request, argument);
    if (fails()) return -1;
    int status = real(file, request, argument);
    if (status == 0 && file >= 0 && file < MOST_FILES) is_quick[file] = *(int *)argument != 0;
    return status;
}
