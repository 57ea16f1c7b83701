/* A library to preload: reads that give little, fail or end, and an output that takes little or
 * fails.
 *
 *   READ_MOST=N       each read gives at most N bytes
 *   READ_PATH=PATH    the file whose reads fail with READ_ERROR once they gave READ_ROOM bytes
 *   READ_ERROR=0      they end there, as the end of a file, and do not fail
 *   READ_STOPS=N      only so many reads fail or end; those after them give what follows
 *   WRITE_MOST=N      each write to standard output takes at most N bytes
 *   WRITE_ROOM=N      standard output takes N bytes in all, and then fails
 *   WRITE_STOPS=N     only so many writes fail; those after them are taken
 */
#define _GNU_SOURCE
#include <errno.h>
#include <stdlib.h>
#include <sys/stat.h>
#include <sys/syscall.h>
#include <unistd.h>

#define NO_LIMIT (1UL << 62)

static unsigned long read_most = NO_LIMIT, read_room = NO_LIMIT, read_stops = NO_LIMIT;
static unsigned long write_most = NO_LIMIT, write_room = NO_LIMIT, write_stops = NO_LIMIT;
static int read_error = EIO;
static int has_path, has_output;
static struct stat path, output;

static unsigned long number(const char *name, unsigned long usual)
{
    const char *text = getenv(name);
    return text == NULL ? usual : strtoul(text, NULL, 10);
}

__attribute__((constructor)) static void begin(void)
{
    const char *name = getenv("READ_PATH");

    read_most = number("READ_MOST", NO_LIMIT);
    read_room = number("READ_ROOM", NO_LIMIT);
    read_stops = number("READ_STOPS", NO_LIMIT);
    write_most = number("WRITE_MOST", NO_LIMIT);
    write_room = number("WRITE_ROOM", NO_LIMIT);
    write_stops = number("WRITE_STOPS", NO_LIMIT);
    read_error = (int)number("READ_ERROR", EIO);
    has_path = name != NULL && stat(name, &path) == 0;
    has_output = fstat(STDOUT_FILENO, &output) == 0;
}

static int is_same(int file, const struct stat *other)
{
    struct stat here;
    return fstat(file, &here) == 0 && here.st_dev == other->st_dev && here.st_ino == other->st_ino;
}

static size_t least(size_t size, unsigned long most)
{
    return size < most ? size : (size_t)most;
}

ssize_t read(int file, void *to, size_t size)
{
    size = least(size, read_most);
    if (!has_path || !is_same(file, &path) || read_stops == 0)
        return syscall(SYS_read, file, to, size);
    if (read_room == 0) {
        read_stops--;
        errno = read_error;
        return read_error == 0 ? 0 : -1;
    }
    ssize_t given = syscall(SYS_read, file, to, least(size, read_room));
    if (given > 0)
        read_room -= (unsigned long)given;
    return given;
}

static ssize_t take(int file, const void *from, size_t size)
{
    if (!has_output || !is_same(file, &output) || write_stops == 0)
        return syscall(SYS_write, file, from, size);
    if (size > 0 && write_room == 0) {
        write_stops--;
        errno = ENOSPC;
        return -1;
    }
    ssize_t taken = syscall(SYS_write, file, from, least(least(size, write_most), write_room));
    if (taken > 0)
        write_room -= (unsigned long)taken;
    return taken;
}

ssize_t write(int file, const void *from, size_t size)
{
    return take(file, from, size);
}

ssize_t __write(int file, const void *from, size_t size)
{
    return take(file, from, size);
}
