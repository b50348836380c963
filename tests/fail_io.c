/* Laid in front of the C library: the ends of the program fail where the environment says. Reads of any file count
   together, and so do writes to standard output.
   READ_FAILS_AT=N   after N bytes a read fails, as on a broken disk
   READ_ENDS_AT=N    after N bytes there is no more
   READ_SIZE=K       a read gives at most K bytes
   WRITE_FAILS_AT=N  after N bytes a write fails, as on a full disk; one that goes past them is taken up to there
   WRITE_SIZE=K      a write takes at most K bytes */
#define _GNU_SOURCE
#include <dlfcn.h>
#include <errno.h>
#include <stdint.h>
#include <stdlib.h>
#include <unistd.h>

static size_t taken;
static size_t given;

/* The number that the environment has for a name, or the greatest. */
static size_t number_of(const char *name)
{
    const char *number = getenv(name);
    return number ? strtoul(number, NULL, 10) : SIZE_MAX;
}

static size_t least(size_t a, size_t b)
{
    return a < b ? a : b;
}

ssize_t read(int file, void *bytes, size_t size)
{
    static ssize_t (*real)(int, void *, size_t);
    if (!real)
        *(void **)&real = dlsym(RTLD_NEXT, "read");
    size_t fails = number_of("READ_FAILS_AT"), ends = number_of("READ_ENDS_AT");
    if (size && taken >= fails) {
        errno = EIO;
        return -1;
    }
    if (taken >= ends)
        return 0;
    size = least(size, least(least(fails, ends) - taken, number_of("READ_SIZE")));
    ssize_t count = real(file, bytes, size);
    taken += count > 0 ? count : 0;
    return count;
}

ssize_t write(int file, const void *bytes, size_t size)
{
    static ssize_t (*real)(int, const void *, size_t);
    if (!real)
        *(void **)&real = dlsym(RTLD_NEXT, "write");
    if (file != STDOUT_FILENO)
        return real(file, bytes, size);
    size_t fails = number_of("WRITE_FAILS_AT");
    if (size && given >= fails) {
        errno = ENOSPC;
        return -1;
    }
    ssize_t count = real(file, bytes, least(size, least(fails - given, number_of("WRITE_SIZE"))));
    given += count > 0 ? count : 0;
    return count;
}

/* The other name under which the C library has it. */
ssize_t __write(int file, const void *bytes, size_t size)
{
    return write(file, bytes, size);
}
