// Loaded before a program: fails the N-th call that opens, reads, writes, syncs, renames or removes a file (FAIL=N) with an input/output error.
// After a failed call the file that REFUSED names exists. Standard input, output and error are left alone.
#define _GNU_SOURCE
#include <dlfcn.h>
#include <errno.h>
#include <fcntl.h>
#include <stdarg.h>
#include <stdio.h>
#include <stdlib.h>
#include <sys/types.h>
#include <unistd.h>

static long count;

static int fails(void) {
    const char *text = getenv("FAIL"), *path = getenv("REFUSED");
    if (!text || __atomic_add_fetch(&count, 1, __ATOMIC_SEQ_CST) != atol(text)) return 0;
    __typeof__(&creat) make = dlsym(RTLD_NEXT, "creat");
    if (path) close(make(path, 0600));
    errno = EIO;
    return 1;
}

#define NEXT(name) static __typeof__(&name) next; if (!next) next = dlsym(RTLD_NEXT, #name)

int open(const char *path, int flags, ...) {
    NEXT(open);
    va_list more;
    va_start(more, flags);
    mode_t mode = va_arg(more, mode_t);
    va_end(more);
    return fails() ? -1 : next(path, flags, mode);
}

int open64(const char *path, int flags, ...) {
    NEXT(open64);
    va_list more;
    va_start(more, flags);
    mode_t mode = va_arg(more, mode_t);
    va_end(more);
    return fails() ? -1 : next(path, flags, mode);
}

ssize_t read(int file, void *to, size_t bytes) {
    NEXT(read);
    return file > 2 && fails() ? -1 : next(file, to, bytes);
}

ssize_t write(int file, const void *from, size_t bytes) {
    NEXT(write);
    return file > 2 && fails() ? -1 : next(file, from, bytes);
}

ssize_t pwrite(int file, const void *from, size_t bytes, off_t at) {
    NEXT(pwrite);
    return fails() ? -1 : next(file, from, bytes, at);
}

ssize_t pwrite64(int file, const void *from, size_t bytes, off64_t at) {
    NEXT(pwrite64);
    return fails() ? -1 : next(file, from, bytes, at);
}

int fsync(int file) {
    NEXT(fsync);
    return fails() ? -1 : next(file);
}

int fdatasync(int file) {
    NEXT(fdatasync);
    return fails() ? -1 : next(file);
}

int rename(const char *from, const char *to) {
    NEXT(rename);
    return fails() ? -1 : next(from, to);
}

int unlink(const char *path) {
    NEXT(unlink);
    return fails() ? -1 : next(path);
}
