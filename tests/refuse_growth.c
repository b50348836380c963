/* Laid in front of the C library: the growth whose number REFUSE_GROWTH gives is refused, counted from 1.
   At the end REFUSE_GROWTH_MET, a file's name, is made where that growth was asked for. With GROWTH_LIMIT
   each growth is refused that passes so many bytes, counted over all that were asked for. */
#define _GNU_SOURCE
#include <dlfcn.h>
#include <fcntl.h>
#include <stddef.h>
#include <stdint.h>
#include <stdlib.h>
#include <unistd.h>

static long asked;
static long refused = -1;
static size_t left = SIZE_MAX;

static int refuses(size_t size)
{
    if (refused < 0) {
        const char *number = getenv("REFUSE_GROWTH");
        const char *limit = getenv("GROWTH_LIMIT");
        refused = number ? atol(number) : 0;
        left = limit ? strtoul(limit, NULL, 10) : SIZE_MAX;
    }
    if (size > left)
        return 1;
    left -= size;
    if (refused == 0 || ++asked != refused)
        return 0;
    const char *met = getenv("REFUSE_GROWTH_MET");
    if (met) {
        int file = open(met, O_CREAT | O_WRONLY, 0600);
        if (file >= 0)
            close(file);
    }
    return 1;
}

void *malloc(size_t size)
{
    static void *(*real)(size_t);
    if (!real)
        *(void **)&real = dlsym(RTLD_NEXT, "malloc");
    return refuses(size) ? NULL : real(size);
}

void *realloc(void *block, size_t size)
{
    static void *(*real)(void *, size_t);
    if (!real)
        *(void **)&real = dlsym(RTLD_NEXT, "realloc");
    return refuses(size) ? NULL : real(block, size);
}
