/* Says whether a sheet is right: ./check JOB.gsi SHEET.csv. Compile it by
 * cc example.c $(pkg-config --cflags --libs station_check) -o check */
#include <station_check.h>
#include <stdio.h>
#include <stdlib.h>

/* A file of the largest size and a byte more, so that a longer one is refused and not cut. */
static char gsi[(16 << 20) + 1], sheet[(1 << 20) + 1];

static size_t read_file(const char *path, char *bytes, size_t room) {
    FILE *file = fopen(path, "rb");
    if (!file) { perror(path); exit(2); }
    size_t length = fread(bytes, 1, room, file);
    if (ferror(file)) { perror(path); exit(2); }
    fclose(file);
    return length;
}

int main(int count, char **words) {
    if (count != 3) { fprintf(stderr, "usage: check JOB.gsi SHEET.csv\n"); return 2; }
    size_t gsi_length = read_file(words[1], gsi, sizeof gsi);
    size_t sheet_length = read_file(words[2], sheet, sizeof sheet);
    char line[STATION_CHECK_LINE];
    size_t length;
    int status = station_check_check(gsi, gsi_length, sheet, sheet_length, STATION_CHECK_FACES,
                                     STATION_CHECK_FACES, 0, 0, line, sizeof line, &length);
    fwrite(line, 1, length, status == STATION_CHECK_DONE ? stdout : stderr);
    return status;
}
