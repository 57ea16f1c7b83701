/* What `mark` can't do without on a large file, and no more: since nothing of it may be printed
   before all of it was seen, it is read by pieces, kept, looked through for the ends of its lines,
   and written out.

     cc -O3 -o /tmp/floor bench/floor.c
     /tmp/floor keep FILE.gsi >/dev/null     keeps it in memory as it comes, pages of 4 KB
     /tmp/floor huge FILE.gsi >/dev/null     asks the system for pages of 2 MB, which std can't
     /tmp/floor drop FILE.gsi >/dev/null     keeps nothing: what `list` can't do without */
#define _GNU_SOURCE
#include <fcntl.h>
#include <stdio.h>
#include <stdlib.h>
#include <string.h>
#include <sys/mman.h>
#include <unistd.h>

/* Bytes that are read and written at a time, as by the program. */
enum { PIECE = 32768, HUGE = 2 << 20, LONGEST_FILE = 16 << 20 };

static size_t lines(const char *bytes, size_t count)
{
    size_t found = 0;
    for (const char *at = bytes, *end = bytes + count; (at = memchr(at, '\n', end - at)); at++)
        found++;
    return found;
}

int main(int count, char **words)
{
    if (count != 3)
        return 2;
    int keeps = words[1][0] != 'd', is_huge = words[1][0] == 'h', file = open(words[2], O_RDONLY);
    size_t room = is_huge ? LONGEST_FILE + HUGE : PIECE, kept = 0, found = 0;
    char *bytes = is_huge ? aligned_alloc(HUGE, room) : malloc(room);
    if (is_huge)
        madvise(bytes, room, MADV_HUGEPAGE);
    for (ssize_t got; (got = read(file, bytes + kept, PIECE)) > 0;) {
        if (keeps)
            kept += got;
        else
            found += lines(bytes, got);
        if (room - kept < PIECE)
            bytes = realloc(bytes, room *= 2);
    }
    found += lines(bytes, kept);
    for (size_t from = 0; from < kept; from += PIECE)
        if (write(1, bytes + from, kept - from < PIECE ? kept - from : PIECE) < 0)
            return 1;
    fprintf(stderr, "%zu lines\n", found);
    return 0;
}
