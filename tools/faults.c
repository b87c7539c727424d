/* Makes reads of standard input or writes to standard output fail, for tools/try-plan: loaded before the C library (LD_PRELOAD).
 *
 *   FAULT_CALL     read or write
 *   FAULT_FIRST, FAULT_LAST
 *                  the first and the last of these calls that fails, counted from 1
 *   FAULT_ERROR    the number that errno gets (EIO where it is not set)
 *   FAULT_BYTES    the most bytes that a call moves
 *
 * Without FAULT_CALL or FAULT_LAST no call fails, without FAULT_BYTES none is cut short.
 */
#define _GNU_SOURCE
#include <dlfcn.h>
#include <errno.h>
#include <stdlib.h>
#include <string.h>
#include <unistd.h>

static long setting(const char *name, long otherwise)
{
    const char *value = getenv(name);
    return value != NULL ? atol(value) : otherwise;
}

/* Whether this call of read or write fails; errno is set then. */
static int fails(const char *call)
{
    static long calls;
    const char *chosen = getenv("FAULT_CALL");
    if (chosen == NULL || strcmp(chosen, call) != 0) {
        return 0;
    }
    calls++;
    if (calls < setting("FAULT_FIRST", 1) || calls > setting("FAULT_LAST", 0)) {
        return 0;
    }
    errno = (int)setting("FAULT_ERROR", EIO);
    return 1;
}

static size_t most(size_t count)
{
    long bytes = setting("FAULT_BYTES", 0);
    return bytes > 0 && (size_t)bytes < count ? (size_t)bytes : count;
}

ssize_t read(int fd, void *buffer, size_t count)
{
    ssize_t (*original)(int, void *, size_t) = (ssize_t (*)(int, void *, size_t))dlsym(RTLD_NEXT, "read");
    if (fd != STDIN_FILENO) {
        return original(fd, buffer, count);
    }
    return fails("read") ? -1 : original(fd, buffer, most(count));
}

ssize_t write(int fd, const void *buffer, size_t count)
{
    ssize_t (*original)(int, const void *, size_t) = (ssize_t (*)(int, const void *, size_t))dlsym(RTLD_NEXT, "write");
    if (fd != STDOUT_FILENO) {
        return original(fd, buffer, count);
    }
    return fails("write") ? -1 : original(fd, buffer, most(count));
}
