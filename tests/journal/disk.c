// Stands before the C library of a host that keeps a journal: it writes down what becomes of the journal's files, and at
// one call lets the disk fail or the machine die.
//
//   DISK_PATH   the journal's name with its folder's whole path. Other files aren't touched
//   DISK_LOG    a file to which each call is appended, as NUMBER CALL INODE SIZE, once it has been done
//   DISK_AT     the number of the call that fails, counted from 1
//   DISK_DOES   error (it fails), short (a write writes half, and the next call fails), die (the process is gone before it)
//   DISK_ERRNO  the number of the error
#define _GNU_SOURCE
#include <dlfcn.h>
#include <errno.h>
#include <fcntl.h>
#include <limits.h>
#include <pthread.h>
#include <signal.h>
#include <stdio.h>
#include <stdlib.h>
#include <string.h>
#include <sys/stat.h>
#include <sys/syscall.h>
#include <unistd.h>

enum kind { FOLDER = 1, TEXT = 2 };
enum fate { DONE, FAILS, HALF };

static pthread_mutex_t lock = PTHREAD_MUTEX_INITIALIZER;
static char path[PATH_MAX], folder[PATH_MAX], does[16];
static int log_file = -1;
static long calls, at, error_number;

__attribute__((constructor)) static void begin(void) {
    const char *name = getenv("DISK_PATH"), *log_name = getenv("DISK_LOG"), *what = getenv("DISK_DOES");
    if (!name || !log_name)
        return;
    snprintf(path, sizeof path, "%s", name);
    snprintf(folder, sizeof folder, "%s", name);
    *strrchr(folder, '/') = 0;
    snprintf(does, sizeof does, "%s", what ? what : "");
    at = getenv("DISK_AT") ? atol(getenv("DISK_AT")) : 0;
    error_number = getenv("DISK_ERRNO") ? atol(getenv("DISK_ERRNO")) : EIO;
    log_file = fcntl(open(log_name, O_WRONLY | O_APPEND | O_CREAT | O_CLOEXEC, 0600), F_DUPFD_CLOEXEC, 100);
}

// Whether an open file is one of the journal's, or its folder.
static int kind_of(int file) {
    char link[64], name[PATH_MAX];
    if (log_file < 0 || file == log_file)
        return 0;
    snprintf(link, sizeof link, "/proc/self/fd/%d", file);
    ssize_t size = readlink(link, name, sizeof name - 1);
    if (size < 0)
        return 0;
    name[size] = 0;
    return strcmp(name, folder) == 0 ? FOLDER : strncmp(name, path, strlen(path)) == 0 ? TEXT : 0;
}

static void note(long number, const char *call, struct stat *about) {
    char line[128];
    int size = snprintf(line, sizeof line, "%ld %s %lu %ld\n", number, call, about ? (unsigned long)about->st_ino : 0, about ? (long)about->st_size : 0);
    syscall(SYS_write, log_file, line, size);
}

// Numbers a call, and what becomes of it. The lock is held until `end`.
static enum fate turn(long *number, int is_write) {
    pthread_mutex_lock(&lock);
    *number = ++calls;
    if (*number == at && strcmp(does, "die") == 0) {
        note(*number, "die", NULL);
        kill(getpid(), SIGKILL);
        for (;;)
            pause();
    }
    int halves = strcmp(does, "short") == 0 && is_write;
    if (*number == at)
        return halves ? HALF : FAILS;
    return at && *number == at + 1 && strcmp(does, "short") == 0 ? FAILS : DONE;
}

static void end(long number, const char *call, int file) {
    struct stat about;
    note(number, call, file >= 0 && fstat(file, &about) == 0 ? &about : NULL);
    pthread_mutex_unlock(&lock);
}

static int fail(long number) {
    end(number, "fail", -1);
    errno = (int)error_number;
    return -1;
}

ssize_t write(int file, const void *bytes, size_t count) {
    long number;
    if (kind_of(file) != TEXT)
        return syscall(SYS_write, file, bytes, count);
    enum fate fate = turn(&number, 1);
    if (fate == FAILS)
        return fail(number);
    ssize_t written = syscall(SYS_write, file, bytes, fate == HALF ? (count + 1) / 2 : count);
    end(number, "write", file);
    return written;
}

static int sync_by(long call, int file) {
    long number;
    int kind = kind_of(file);
    if (!kind)
        return (int)syscall(call, file);
    if (turn(&number, 0) != DONE)
        return fail(number);
    int status = (int)syscall(call, file);
    end(number, kind == FOLDER ? "folder" : "sync", file);
    return status;
}

int fsync(int file) { return sync_by(SYS_fsync, file); }

int fdatasync(int file) { return sync_by(SYS_fdatasync, file); }

int ftruncate(int file, off_t size) {
    long number;
    if (kind_of(file) != TEXT)
        return (int)syscall(SYS_ftruncate, file, size);
    if (turn(&number, 0) != DONE)
        return fail(number);
    int status = (int)syscall(SYS_ftruncate, file, size);
    end(number, "truncate", file);
    return status;
}

int rename(const char *from, const char *to) {
    long number;
    struct stat about;
    if (log_file < 0)
        return (int)syscall(SYS_renameat, AT_FDCWD, from, AT_FDCWD, to);
    if (turn(&number, 0) != DONE)
        return fail(number);
    int status = (int)syscall(SYS_renameat, AT_FDCWD, from, AT_FDCWD, to);
    note(number, "rename", stat(to, &about) == 0 ? &about : NULL);
    pthread_mutex_unlock(&lock);
    return status;
}
