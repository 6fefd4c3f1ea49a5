/* Linked into a program with --wrap=malloc and --wrap=realloc: the REFUSE-th request for memory is refused, counted from 1. The
   number of all requests is written to the file COUNT when the program ends. */
#include <stdio.h>
#include <stdlib.h>

void *__real_malloc(size_t size);
void *__real_realloc(void *at, size_t size);

static unsigned long requests;

__attribute__((destructor)) static void end(void)
{
    const char *path = getenv("COUNT");
    FILE *file = path ? fopen(path, "w") : NULL;
    if (file) {
        fprintf(file, "%lu\n", requests);
        fclose(file);
    }
}

static int is_refused(void)
{
    const char *number = getenv("REFUSE");
    return ++requests == (number ? strtoul(number, NULL, 10) : 0);
}

void *__wrap_malloc(size_t size)
{
    return is_refused() ? NULL : __real_malloc(size);
}

void *__wrap_realloc(void *at, size_t size)
{
    return is_refused() ? NULL : __real_realloc(at, size);
}
