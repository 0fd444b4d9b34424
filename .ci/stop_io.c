// Loaded before a program: stops it at a write, and records what it writes. Standard input, output and error are left alone.
// STOP=N: at the N-th write, cut or sync of a file the process is killed, before it; with HALF=1 after the first half of a write's bytes.
// PAUSE=N: before the N-th the process stops, until it is told to go on.
// RECORD=FILE: each of them that was made is appended to FILE: a kind (1 write, 2 sync, 3 cut), the length of the file's name, the
// offset and the length of the bytes, in eight bytes each; then the name and the bytes.
// UNREAD=NAME: reads of a file of that name, at UNREAD_AT or past it, fail with an input/output error.
// BREAK=NAME: from the N-th of them on, N by BREAK_AT, those of a file of that name fail with an input/output error; of all files whose
// names begin so where NAME ends in a star.
// FULL=N: the device is full from the N-th on: that write is cut short, and later ones fail.
#define _GNU_SOURCE
#include <dlfcn.h>
#include <errno.h>
#include <fcntl.h>
#include <signal.h>
#include <stdio.h>
#include <stdlib.h>
#include <string.h>
#include <sys/types.h>
#include <sys/uio.h>
#include <unistd.h>

static long count;

static const char *name_of(int file, char *path, size_t size) {
    char link[64];
    snprintf(link, sizeof link, "/proc/self/fd/%d", file);
    ssize_t length = readlink(link, path, size - 1);
    path[length < 0 ? 0 : length] = 0;
    char *slash = strrchr(path, '/');
    return slash ? slash + 1 : path;
}

#define NEXT(name) static __typeof__(&name) next; if (!next) next = dlsym(RTLD_NEXT, #name)

static ssize_t put(int file, const void *from, size_t bytes, off64_t at) {
    static __typeof__(&pwrite64) next;
    if (!next) next = dlsym(RTLD_NEXT, "pwrite64");
    return next(file, from, bytes, at);
}

static void record(long kind, int file, off64_t at, const void *from, size_t bytes) {
    const char *path = getenv("RECORD");
    if (!path) return;
    static int log = -1;
    if (log < 0) log = open(path, O_WRONLY | O_APPEND | O_CREAT, 0600);
    char place[4096];
    const char *name = name_of(file, place, sizeof place);
    long front[4] = { kind, strlen(name), at, bytes };
    struct iovec parts[3] = { { front, sizeof front }, { (void *)name, strlen(name) }, { (void *)from, bytes } };
    if (writev(log, parts, 3) < 0) abort();
}

// Whether a file has this name, or one that begins so.
static int is_called(int file, const char *name) {
    char place[4096];
    size_t length = strlen(name);
    const char *own = name_of(file, place, sizeof place);
    return length && name[length - 1] == '*' ? !strncmp(own, name, length - 1) : !strcmp(own, name);
}

// Kills the process, or says that the call fails.
static int stops(int file, const void *from, size_t bytes, off64_t at) {
    long number = ++count;
    const char *stop = getenv("STOP"), *broken = getenv("BREAK"), *first = getenv("BREAK_AT"), *pause = getenv("PAUSE");
    if (pause && number == atol(pause)) raise(SIGSTOP);
    if (stop && number == atol(stop)) {
        if (getenv("HALF") && bytes > 1) put(file, from, bytes / 2, at);
        kill(getpid(), SIGKILL);
    }
    if (!broken || number < (first ? atol(first) : 1) || !is_called(file, broken)) return 0;
    errno = EIO;
    return 1;
}

// How many bytes of a write the device takes.
static ssize_t room_for(size_t bytes) {
    const char *full = getenv("FULL");
    if (!full || count < atol(full)) return bytes;
    if (count == atol(full) && bytes > 1) return bytes / 2;
    errno = ENOSPC;
    return -1;
}

ssize_t pwrite64(int file, const void *from, size_t bytes, off64_t at) {
    if (stops(file, from, bytes, at)) return -1;
    ssize_t room = room_for(bytes);
    if (room < 0) return -1;
    ssize_t done = put(file, from, room, at);
    if (done > 0) record(1, file, at, from, done);
    return done;
}

ssize_t pwrite(int file, const void *from, size_t bytes, off_t at) {
    return pwrite64(file, from, bytes, at);
}

int ftruncate64(int file, off64_t at) {
    NEXT(ftruncate64);
    if (stops(file, 0, 0, 0)) return -1;
    int done = next(file, at);
    if (done == 0) record(3, file, at, "", 0);
    return done;
}

int ftruncate(int file, off_t at) {
    return ftruncate64(file, at);
}

ssize_t write(int file, const void *from, size_t bytes) {
    NEXT(write);
    off64_t at = file > 2 ? lseek64(file, 0, SEEK_CUR) : -1;
    if (at < 0) return next(file, from, bytes);
    if (stops(file, from, bytes, at)) return -1;
    ssize_t done = next(file, from, bytes);
    if (done > 0) record(1, file, at, from, done);
    return done;
}

// Counts as a write, and isn't recorded.
int rename(const char *old, const char *new) {
    NEXT(rename);
    if (stops(-1, 0, 0, 0)) return -1;
    return next(old, new);
}

int fdatasync(int file) {
    NEXT(fdatasync);
    if (stops(file, 0, 0, 0)) return -1;
    int done = next(file);
    if (done == 0) record(2, file, 0, "", 0);
    return done;
}

int fsync(int file) {
    NEXT(fsync);
    if (stops(file, 0, 0, 0)) return -1;
    int done = next(file);
    if (done == 0) record(2, file, 0, "", 0);
    return done;
}

static int fails(int file, off64_t at, size_t bytes) {
    const char *name = getenv("UNREAD"), *from = getenv("UNREAD_AT");
    if (!name || at + (off64_t)bytes <= (from ? atol(from) : 0) || !is_called(file, name)) return 0;
    errno = EIO;
    return 1;
}

ssize_t pread64(int file, void *to, size_t bytes, off64_t at) {
    NEXT(pread64);
    return fails(file, at, bytes) ? -1 : next(file, to, bytes, at);
}

ssize_t pread(int file, void *to, size_t bytes, off_t at) {
    return pread64(file, to, bytes, at);
}
