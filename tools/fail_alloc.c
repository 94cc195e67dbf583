// Fails one allocation of a process: loaded before the C library (LD_PRELOAD) by tools/check-alloc-failures. FAIL is
// the number of the allocation that finds no memory, from 1, or 0 for none; into the file COUNTED goes how many were
// asked for.
#define _GNU_SOURCE
#include <dlfcn.h>
#include <errno.h>
#include <fcntl.h>
#include <stddef.h>
#include <stdint.h>
#include <stdlib.h>
#include <sys/mman.h>
#include <unistd.h>

static uint64_t none;
static uint64_t *count = &none;
static uint64_t failing;

__attribute__((constructor)) static void begin(void)
{
    const char *path = getenv("COUNTED"), *number = getenv("FAIL");
    int file = path ? open(path, O_RDWR) : -1;
    void *page = file < 0 ? MAP_FAILED : mmap(0, sizeof *count, PROT_READ | PROT_WRITE, MAP_SHARED, file, 0);
    failing = number ? strtoull(number, 0, 10) : 0;
    if (page != MAP_FAILED)
        count = page;
    *count = 0;
}

static int fails(void)
{
    if (++*count != failing)
        return 0;
    errno = ENOMEM;
    return 1;
}

void *malloc(size_t size)
{
    static void *(*next)(size_t);
    if (!next)
        next = (void *(*)(size_t))dlsym(RTLD_NEXT, "malloc");
    return fails() ? 0 : next(size);
}

void *realloc(void *old, size_t size)
{
    static void *(*next)(void *, size_t);
    if (!next)
        next = (void *(*)(void *, size_t))dlsym(RTLD_NEXT, "realloc");
    return fails() ? 0 : next(old, size);
}

void *aligned_alloc(size_t alignment, size_t size)
{
    static void *(*next)(size_t, size_t);
    if (!next)
        next = (void *(*)(size_t, size_t))dlsym(RTLD_NEXT, "aligned_alloc");
    return fails() ? 0 : next(alignment, size);
}

int posix_memalign(void **result, size_t alignment, size_t size)
{
    static int (*next)(void **, size_t, size_t);
    if (!next)
        next = (int (*)(void **, size_t, size_t))dlsym(RTLD_NEXT, "posix_memalign");
    return fails() ? ENOMEM : next(result, alignment, size);
}
