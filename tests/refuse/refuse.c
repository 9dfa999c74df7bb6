/* A test's allocator: the allocation that REFUSE counts to, from 1, is refused, and then the file that REFUSED names is
   made. If REFUSE_AFTER names a file, counting begins once that file is there, else at once. If COUNTED names a file, it
   has their number at the end. Loaded before the C library; all threads of a program count together. */
#define _GNU_SOURCE
#include <dlfcn.h>
#include <errno.h>
#include <fcntl.h>
#include <stdio.h>
#include <stdatomic.h>
#include <stdlib.h>
#include <unistd.h>

static atomic_long seen;
static atomic_int begun;

static int has_begun(void) {
    if (atomic_load(&begun)) return 1;
    const char *start = getenv("REFUSE_AFTER");
    int before = errno;
    if (start && access(start, F_OK) != 0) {
        errno = before;
        return 0;
    }
    atomic_store(&begun, 1);
    return 1;
}

static int is_refused(void) {
    const char *which = getenv("REFUSE");
    if (!which || !has_begun() || atomic_fetch_add(&seen, 1) + 1 != atol(which)) return 0;
    const char *mark = getenv("REFUSED");
    if (mark) close(open(mark, O_CREAT | O_WRONLY, 0600));
    errno = ENOMEM;
    return 1;
}

__attribute__((destructor)) static void tell(void) {
    const char *name = getenv("COUNTED");
    int file = name ? open(name, O_CREAT | O_WRONLY | O_TRUNC, 0600) : -1;
    if (file < 0) return;
    dprintf(file, "%ld\n", atomic_load(&seen));
    close(file);
}

void *malloc(size_t size) {
    static void *(*next)(size_t);
    if (!next) next = (void *(*)(size_t))dlsym(RTLD_NEXT, "malloc");
    return is_refused() ? NULL : next(size);
}

void *realloc(void *old, size_t size) {
    static void *(*next)(void *, size_t);
    if (!next) next = (void *(*)(void *, size_t))dlsym(RTLD_NEXT, "realloc");
    return is_refused() ? NULL : next(old, size);
}
