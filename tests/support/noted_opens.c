/* A library to preload: each file that is opened, on a line of its own.
 *
 *   OPENED=PATH       the file to which the paths are added, as they were asked for
 */
#define _GNU_SOURCE
#include <fcntl.h>
#include <stdarg.h>
#include <stdlib.h>
#include <string.h>
#include <sys/syscall.h>
#include <unistd.h>

static void note(const char *path)
{
    const char *name = getenv("OPENED");
    if (name == NULL)
        return;
    long file = syscall(SYS_openat, AT_FDCWD, name, O_WRONLY | O_APPEND | O_CREAT, 0600);
    if (file < 0)
        return;
    (void)!write((int)file, path, strlen(path));
    (void)!write((int)file, "\n", 1);
    close((int)file);
}

static int opened(int folder, const char *path, int flags, va_list rest)
{
    int mode = flags & (O_CREAT | O_TMPFILE) ? va_arg(rest, int) : 0;
    note(path);
    return (int)syscall(SYS_openat, folder, path, flags, mode);
}

#define OPENS(name)                                                                                \
    int name(const char *path, int flags, ...)                                                     \
    {                                                                                              \
        va_list rest;                                                                              \
        va_start(rest, flags);                                                                     \
        int file = opened(AT_FDCWD, path, flags, rest);                                            \
        va_end(rest);                                                                              \
        return file;                                                                               \
    }

#define OPENS_AT(name)                                                                             \
    int name(int folder, const char *path, int flags, ...)                                         \
    {                                                                                              \
        va_list rest;                                                                              \
        va_start(rest, flags);                                                                     \
        int file = opened(folder, path, flags, rest);                                              \
        va_end(rest);                                                                              \
        return file;                                                                               \
    }

OPENS(open)
OPENS(open64)
OPENS_AT(openat)
OPENS_AT(openat64)
