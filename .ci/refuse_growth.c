// Loaded before a program: fails the N-th allocation (REFUSE=N), or each of more bytes than REFUSE_ABOVE.
// After a failed allocation the file that REFUSED names exists. The status doesn't show it: a program can do without some
// allocations, and then it goes on.
#define _GNU_SOURCE
#include <dlfcn.h>
#include <errno.h>
#include <fcntl.h>
#include <stddef.h>
#include <stdlib.h>
#include <unistd.h>

static long count, refuse = -1, above;

static long setting(const char *name) {
    const char *text = getenv(name);
    return text ? atol(text) : 0;
}

static int is_refused(size_t bytes) {
    if (refuse < 0) {
        above = setting("REFUSE_ABOVE");
        refuse = setting("REFUSE");
    }
    if (__atomic_add_fetch(&count, 1, __ATOMIC_SEQ_CST) != refuse && (above == 0 || bytes <= (size_t)above)) return 0;
    const char *path = getenv("REFUSED");
    if (path) close(open(path, O_CREAT | O_WRONLY, 0600));
    errno = ENOMEM;
    return 1;
}

void *malloc(size_t size) {
    static void *(*next)(size_t);
    if (!next) next = dlsym(RTLD_NEXT, "malloc");
    return is_refused(size) ? NULL : next(size);
}

void *calloc(size_t n, size_t size) {
    static void *(*next)(size_t, size_t);
    if (!next) next = dlsym(RTLD_NEXT, "calloc");
    return is_refused(n * size) ? NULL : next(n, size);
}

void *realloc(void *old, size_t size) {
    static void *(*next)(void *, size_t);
    if (!next) next = dlsym(RTLD_NEXT, "realloc");
    return is_refused(size) ? NULL : next(old, size);
}

int posix_memalign(void **to, size_t align, size_t size) {
    static int (*next)(void **, size_t, size_t);
    if (!next) next = dlsym(RTLD_NEXT, "posix_memalign");
    return is_refused(size) ? 12 : next(to, align, size);
}

void *aligned_alloc(size_t align, size_t size) {
    static void *(*next)(size_t, size_t);
    if (!next) next = dlsym(RTLD_NEXT, "aligned_alloc");
    return is_refused(size) ? NULL : next(align, size);
}
