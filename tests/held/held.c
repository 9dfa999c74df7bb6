/* A test's allocator that tells how many bytes a program holds: the file that HELD names has two numbers of eight bytes
   each, how many are held now and how many at the most. Who waits for the program may set the second one back to the
   first. What the allocator keeps of a block counts with it, and a block that moves is held twice for a moment. Loaded
   before the C library. */
#define _GNU_SOURCE
#include <dlfcn.h>
#include <fcntl.h>
#include <malloc.h>
#include <stdatomic.h>
#include <stdint.h>
#include <stdlib.h>
#include <sys/mman.h>
#include <unistd.h>

struct held {
    _Atomic int64_t now, most;
};

static struct held before_the_file, *held = &before_the_file;

__attribute__((constructor)) static void begin(void) {
    const char *name = getenv("HELD");
    int file = name ? open(name, O_CREAT | O_RDWR, 0600) : -1;
    if (file < 0 || ftruncate(file, sizeof *held) != 0) abort();
    struct held *shared = mmap(NULL, sizeof *held, PROT_READ | PROT_WRITE, MAP_SHARED, file, 0);
    if (shared == MAP_FAILED) abort();
    close(file);
    atomic_store(&shared->now, atomic_load(&held->now));
    atomic_store(&shared->most, atomic_load(&held->most));
    held = shared;
}

static void count(int64_t bytes) {
    int64_t now = atomic_fetch_add(&held->now, bytes) + bytes, most = atomic_load(&held->most);
    while (most < now && !atomic_compare_exchange_weak(&held->most, &most, now)) {
    }
}

void *malloc(size_t size) {
    static void *(*next)(size_t);
    if (!next) next = (void *(*)(size_t))dlsym(RTLD_NEXT, "malloc");
    void *block = next(size);
    if (block) count((int64_t)malloc_usable_size(block));
    return block;
}

void *realloc(void *old, size_t size) {
    static void *(*next)(void *, size_t);
    if (!next) next = (void *(*)(void *, size_t))dlsym(RTLD_NEXT, "realloc");
    int64_t before = old ? (int64_t)malloc_usable_size(old) : 0;
    void *block = next(old, size);
    if (block) {
        count((int64_t)malloc_usable_size(block));
        count(-before);
    }
    return block;
}

void free(void *block) {
    static void (*next)(void *);
    if (!next) next = (void (*)(void *))dlsym(RTLD_NEXT, "free");
    if (block) count(-(int64_t)malloc_usable_size(block));
    next(block);
}
