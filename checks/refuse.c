/* Preloaded into a program: its REFUSE-th request for memory is refused, counted from 1. The number of all
   requests is written to the file COUNT when the program ends. */
#define _GNU_SOURCE
#include <dlfcn.h>
#include <errno.h>
#include <stdio.h>
#include <stdlib.h>

static unsigned long requests, refused;

__attribute__((constructor)) static void begin(void)
{
    const char *number = getenv("REFUSE");
    refused = number ? strtoul(number, NULL, 10) : 0;
    requests = 0;
}

__attribute__((destructor)) static void end(void)
{
    unsigned long all = requests;
    const char *path = getenv("COUNT");
    FILE *file = path ? fopen(path, "w") : NULL;
    if (file) {
        fprintf(file, "%lu", all);
        fclose(file);
    }
}

static int is_refused(void)
{
    requests++;
    if (requests != refused)
        return 0;
    errno = ENOMEM;
    return 1;
}

void *malloc(size_t size)
{
    static void *(*next)(size_t);
    if (!next)
        next = (void *(*)(size_t))dlsym(RTLD_NEXT, "malloc");
    return is_refused() ? NULL : next(size);
}

void *aligned_alloc(size_t align, size_t size)
{
    static void *(*next)(size_t, size_t);
    if (!next)
        next = (void *(*)(size_t, size_t))dlsym(RTLD_NEXT, "aligned_alloc");
    return is_refused() ? NULL : next(align, size);
}

int posix_memalign(void **at, size_t align, size_t size)
{
    static int (*next)(void **, size_t, size_t);
    if (!next)
        next = (int (*)(void **, size_t, size_t))dlsym(RTLD_NEXT, "posix_memalign");
    return is_refused() ? ENOMEM : next(at, align, size);
}

void *realloc(void *at, size_t size)
{
    static void *(*next)(void *, size_t);
    if (!next)
        next = (void *(*)(void *, size_t))dlsym(RTLD_NEXT, "realloc");
    return is_refused() ? NULL : next(at, size);
}

void *calloc(size_t count, size_t size)
{
    static void *(*next)(size_t, size_t);
    if (!next)
        next = (void *(*)(size_t, size_t))dlsym(RTLD_NEXT, "calloc");
    return is_refused() ? NULL : next(count, size);
}
