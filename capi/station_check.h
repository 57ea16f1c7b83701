/* station_check: the proved calls of the program, for C.
 *
 * Whole files and numbers go in, a status and a text come out. docs/LIBRARY.md has an example, and
 * docs/FORMATS.md the files and texts, byte by byte. Compile and link with what
 * `pkg-config --cflags --libs station_check` says.
 *
 * Buffers are the caller's: a call reads `length` bytes at a pointer, which is never null, and
 * keeps no pointer when it returns. No two buffers of a call overlap. The library takes memory by
 * malloc, and gives all of it back. Calls on several threads may run at the same time. A call is
 * not made from a signal handler, nor in the child that a process with threads forked.
 *
 * Texts: `text` has room for `room` bytes. The call writes the text to its beginning, without a
 * zero at the end, and its length to `*length`. If there is too little room for a text nothing of it
 * is written but the length 0, and the status is 3: call again with more. STATION_CHECK_LINE bytes
 * are enough for each line of station_check_check and station_check_compare, and
 * STATION_CHECK_NOTE for the note of a table; any other text may have more bytes than the files.
 *
 * Limits: those of face differences, `two_c` and `two_i`, are in units of 0.01 mgon, at most
 * 1,000,000, and usually STATION_CHECK_FACES. Where `is_stated` is 0 there is no limit of
 * residuals, or the usual one of a comparison, whatever number stands after it; any other value
 * states that number. Calls that adjust a station (compare, differences, table, directions,
 * residuals, report, station) refuse it where a residual is above 10 mgon, the largest limit.
 *
 * Tables of directions: `unit` is one of those below. `names` and `directions` state the columns of
 * the names and of their directions, two, counted from 1, at most 999,999; where both are 0 none are
 * stated: the table has two, or the one pair of its columns that fits is found. What was read by a
 * pair of columns is told in `note`, by a line that says which they are, and how much was passed
 * over; and of a table that is apart a line names another unit in which it agrees. Else `note` is
 * empty, and so it is at a refusal before the table was compared.
 *
 * Names of stations have 1 to 16 bytes from 20 to 7E (hex), without a zero at the end.
 *
 * Rows have commas between their fields; a field that has a comma or a quote stands in quotes.
 */
#ifndef STATION_CHECK_H
#define STATION_CHECK_H

#include <stddef.h>
#include <stdint.h>

#ifdef __cplusplus
extern "C" {
#endif

/* The version of the program whose calls these are. */
#define STATION_CHECK_VERSION "1.0.0"

/* What a call answers. */
enum {
    STATION_CHECK_DONE = 0,            /* accepted, agrees, or written: the text says it */
    STATION_CHECK_REFUSED = 1,         /* the text is the line of the refusal */
    STATION_CHECK_OUT_OF_RANGE = 2,    /* a number or a name is out of its range: no text */
    STATION_CHECK_TOO_LITTLE_ROOM = 3  /* a text has more bytes than there is room for: not there */
};

/* Room for any line of a check or a comparison, and for the note of a table, in bytes. */
#define STATION_CHECK_LINE 192
#define STATION_CHECK_NOTE 320

/* The limits of face differences that are usual, in units of 0.01 mgon: 20 mgon. */
#define STATION_CHECK_FACES 2000

/* The unit of a table's directions. */
enum {
    STATION_CHECK_GON = 0,
    STATION_CHECK_DEGREES = 1,  /* decimal, or with minutes and seconds */
    STATION_CHECK_DMMSS = 2     /* two digits of minutes after the point, then the seconds */
};

/* The language of a text. */
enum {
    STATION_CHECK_ENGLISH = 0,
    STATION_CHECK_GERMAN = 1,
    STATION_CHECK_FRENCH = 2
};

/* Checks a sheet against a field file. The text is the line of the acceptance or of the refusal.
 * `residual` limits the residuals, in half units of 0.005 mgon, at most 2,000. */
uint8_t station_check_check(const void *gsi, size_t gsi_length,
                            const void *sheet, size_t sheet_length,
                            uint32_t two_c, uint32_t two_i, uint32_t is_stated, uint32_t residual,
                            char *text, size_t room, size_t *length);

/* Compares a table of directions with the least-squares ones of a station. The text is the line of
 * the agreement, with the greatest residual, or of the refusal. `within` is how far they may be
 * apart, in units of 0.001 mgon, at most 1,000,000; if none is stated, what is usual for the
 * decimals of the table. The status is 3 if the text or the note has too little room. */
uint8_t station_check_compare(const void *gsi, size_t gsi_length,
                              const void *table, size_t table_length,
                              const char *station, size_t station_length,
                              uint32_t two_c, uint32_t two_i,
                              uint32_t unit, uint32_t names, uint32_t directions,
                              uint32_t is_stated, uint32_t within,
                              char *text, size_t room, size_t *length,
                              char *note, size_t note_room, size_t *note_length);

/* The differences of a table of directions from the least-squares ones of a station: a row of
 * titles, and a row for each target, with what the table states and the least-squares direction in
 * gon, and in mgon, exactly rounded, their difference after the rotation that makes the largest
 * smallest, and that from the median of all. The table may lack targets of the station if it states
 * two or more: their rows have the least-squares direction alone. The status is 3 if the text or the
 * note has too little room. */
uint8_t station_check_differences(const void *gsi, size_t gsi_length,
                                  const void *table, size_t table_length,
                                  const char *station, size_t station_length,
                                  uint32_t two_c, uint32_t two_i,
                                  uint32_t unit, uint32_t names, uint32_t directions,
                                  char *text, size_t room, size_t *length,
                                  char *note, size_t note_room, size_t *note_length);

/* All of a table beside its station, of one reading of each file and one adjustment. Before each part
 * stands a line of its title, a blank, and how many bytes it has: "line", what station_check_compare
 * hands out; "verdict", the same as a row of data below its titles; and where the table was compared,
 * "columns", the numbers of its note as such a row, "differences", what station_check_differences
 * hands out, and "report", the report with the table. That names the field file by `path` and the
 * table by `table_path`. `within` is that of station_check_compare. The row of the verdict has these
 * fields, of which those that are of no use are empty:
 *   verdict               "agrees", or the name of the fault, which is Apart where the table is apart
 *   sets, targets         how many the station has, where the table agrees
 *   apart, limit          how far the table is apart, and the limit in force, in units of 0.001 mgon
 *   greatest              the greatest residual in these units, where the table agrees
 *   place, first, second  of which "row" or "columns" of the table, "target" or "observation" of the
 *                         station, or "block" of the field file the fault speaks, from 1
 * That of the columns, which is left out where the table was read as two, has:
 *   names, directions     the columns of both, from 1
 *   before, among, after  how many rows were passed over before, among and after those of targets
 *   units                 how many units were passed over
 * The status is 0 where the table agrees, else 1, and 3 if the text or the note has too little
 * room. */
uint8_t station_check_table(const void *gsi, size_t gsi_length,
                            const char *path, size_t path_length,
                            const void *table, size_t table_length,
                            const char *table_path, size_t table_path_length,
                            const char *station, size_t station_length,
                            uint32_t two_c, uint32_t two_i,
                            uint32_t unit, uint32_t names, uint32_t directions,
                            uint32_t is_stated, uint32_t within,
                            char *text, size_t room, size_t *length,
                            char *note, size_t note_room, size_t *note_length);

/* The table of a station's least-squares directions, in gon with 1 to 8 decimals, exactly
 * rounded. */
uint8_t station_check_directions(const void *gsi, size_t gsi_length,
                                 const char *station, size_t station_length,
                                 uint32_t two_c, uint32_t two_i, uint32_t decimals,
                                 char *text, size_t room, size_t *length);

/* The same with a semicolon between the cells of a row and a comma in each number, for a spreadsheet
 * that is set to German or French; and so the observations of `report --csv`. */
uint8_t station_check_comma_directions(const void *gsi, size_t gsi_length,
                                       const char *station, size_t station_length,
                                       uint32_t two_c, uint32_t two_i, uint32_t decimals,
                                       char *text, size_t room, size_t *length);
uint8_t station_check_comma_rows(const void *gsi, size_t gsi_length,
                                 const char *station, size_t station_length,
                                 uint32_t two_c, uint32_t two_i,
                                 char *text, size_t room, size_t *length);

/* So the differences, by what station_check_differences takes. */
uint8_t station_check_comma_differences(const void *gsi, size_t gsi_length,
                                        const void *table, size_t table_length,
                                        const char *station, size_t station_length,
                                        uint32_t two_c, uint32_t two_i,
                                        uint32_t unit, uint32_t names, uint32_t directions,
                                        char *text, size_t room, size_t *length,
                                        char *note, size_t note_room, size_t *note_length);

/* The residuals of a station: a row of titles, and a row for each two-face direction, with the
 * adjusted direction in gon and the residual in mgon, exactly rounded. */
uint8_t station_check_residuals(const void *gsi, size_t gsi_length,
                                const char *station, size_t station_length,
                                uint32_t two_c, uint32_t two_i,
                                char *text, size_t room, size_t *length);

/* The report of a station's sets: what was read in both faces, the least-squares directions, the
 * residuals, the greatest of them, the sum of their squares, and the standard deviations of one
 * two-face direction and of each adjusted direction, exactly rounded; and the limits that were kept.
 * It names the field file by `path`, which may be any bytes: they are escaped as in the line of a
 * digest, and other control bytes as \x1b. Its fixed phrases are in a language, in UTF-8. */
uint8_t station_check_report(const void *gsi, size_t gsi_length,
                             const char *path, size_t path_length,
                             const char *station, size_t station_length,
                             uint32_t two_c, uint32_t two_i, uint32_t language,
                             char *text, size_t room, size_t *length);

/* All of a station, of one reading of the file and one adjustment: what station_check_directions
 * hands out, the titles and observations that `report --csv` prints, how accurate it is, what its face
 * differences say together, and what station_check_report hands out in English. Before each stands a
 * line of its title, "directions", "rows", "accuracy", "faces" or "report", a blank, and how many bytes
 * it has. How accurate it is are two lines: "degrees,deviation,of adjusted,squares", and the degrees
 * of freedom, the standard deviations of one two-face direction and of each adjusted direction in
 * mgon, and the sum of the squares of all residuals in mgon^2. Where there are no degrees of freedom
 * the others are left out, and that of each adjusted direction is where a set lacks a target. Of the
 * face differences are three: "difference,mean,half of mean,spread", and of "2c" and of "2i" their
 * mean, half of it, and the greatest less the least, in mgon. */
uint8_t station_check_station(const void *gsi, size_t gsi_length,
                              const char *path, size_t path_length,
                              const char *station, size_t station_length,
                              uint32_t two_c, uint32_t two_i, uint32_t decimals,
                              char *text, size_t room, size_t *length);

/* The sheet of a station whose sets are complete. */
uint8_t station_check_means(const void *gsi, size_t gsi_length,
                            const char *station, size_t station_length,
                            uint32_t two_c, uint32_t two_i,
                            char *text, size_t room, size_t *length);

/* The list of the stations, their two-face directions and face differences. */
uint8_t station_check_list(const void *gsi, size_t gsi_length,
                           uint32_t two_c, uint32_t two_i,
                           char *text, size_t room, size_t *length);

/* The rows that `list --csv` prints, and how many readings went unchecked since no station is listed.
 * Before each stands a line of its title, "rows" or "unchecked", a blank, and how many bytes it has. */
uint8_t station_check_list_rows(const void *gsi, size_t gsi_length,
                                uint32_t two_c, uint32_t two_i,
                                char *text, size_t room, size_t *length);

/* The words of a field file, one a line. At a fault of the file `text` has the words before it, and
 * `refusal` the line of the refusal; else that is empty. The status is 3 if either has too little
 * room. */
uint8_t station_check_words(const void *gsi, size_t gsi_length,
                            char *text, size_t room, size_t *length,
                            char *refusal, size_t refusal_room, size_t *refusal_length);

/* A copy of a job that was recorded without codes, with codes put in, and in `notes` what was
 * recognized, or the line of the refusal, after those of each station where these were judged. What
 * no reading shows is stated; a text of length 0 states nothing, and a flag that is 0 neither.
 *
 * `station` names the file's one station where its lines name none. `code` is a code whose blocks
 * begin a station each, of the name in their word 42; none of 10, 20 and 30. `sets` is how many
 * sets were read to the end, and `targets` how many targets they have: lines of UTF-8 with a line
 * feed between, each "N", 1 to 40 or to 100, at each station, or "NAME=N" at the one of this name.
 * Sets that were read target by target are marked only where their number is stated.
 *
 * With `same_set_up` a set-up line that names the open station begins nothing. With `again` a
 * station whose name comes again is another set-up, NAME-2. With `others` the readings of stations
 * that aren't recognized stay outside of the sets, and the others are marked.
 *
 * The status is 2 where a name or a code can't be one, or a line states no number in its range, or
 * a second one of a station; and 3 where either text has too little room. */
uint8_t station_check_mark(const void *gsi, size_t gsi_length,
                           const char *station, size_t station_length,
                           const char *code, size_t code_length,
                           const char *sets, size_t sets_length,
                           const char *targets, size_t targets_length,
                           uint32_t same_set_up, uint32_t again, uint32_t others,
                           char *copy, size_t room, size_t *length,
                           char *notes, size_t notes_room, size_t *notes_length);

/* The same copy, or the line of the refusal in its place, and in `rows` what is told of the stations
 * as rows below their titles, at a refusal too where they were judged. Of each station first comes
 * what is told as "set-up", and of each thing two numbers and two names:
 *   told      first, second                                 name, other
 *   set-up    how often its line was written again,
 *             1 if an earlier station has its name
 *   fault     the block, 0                                  the fault; it has no sets
 *   sets      how many sets, how many targets
 *   outside   readings before the sets, and after them
 *   ends                                                    the opening target, the turning one
 *   missing   directions that are missing, of how many
 *   after     targets after the sets in both faces,
 *             1 if the opening one is read again
 *   equal     two sets that are the same
 *   zeniths   by how many mgon zenith angles differ, 0      their target
 * Those from "ends" on are of stations with sets alone. */
uint8_t station_check_mark_rows(const void *gsi, size_t gsi_length,
                                const char *station, size_t station_length,
                                const char *code, size_t code_length,
                                const char *sets, size_t sets_length,
                                const char *targets, size_t targets_length,
                                uint32_t same_set_up, uint32_t again, uint32_t others,
                                char *copy, size_t room, size_t *length,
                                char *rows, size_t rows_room, size_t *rows_length);

/* A copy of a field file in which just the lines that `changes` names are changed: `N` leaves line N
 * out, `N=NAME` gives its point another name; a line feed stands between each two, in the order of
 * the file, whose lines of blanks don't count. The copy is never longer than the file; a refusal has
 * 192 bytes at most. */
uint8_t station_check_change(const void *gsi, size_t gsi_length,
                             const char *changes, size_t changes_length,
                             char *copy, size_t room, size_t *length);

/* The line that sha256sum prints of a file of this name. 68 bytes and twice those of the name are
 * always enough. */
uint8_t station_check_digest(const void *file, size_t file_length,
                             const char *name, size_t name_length,
                             char *text, size_t room, size_t *length);

/* What the fault means that the line of a refusal names, in UTF-8, without its line feed; of length
 * 0, the names of all faults. */
uint8_t station_check_explain(const char *line, size_t line_length,
                              char *text, size_t room, size_t *length);

/* The same in parts, each after a line of its title and of how many bytes it has: `names` of the
 * fault, one a line; its `meaning`; `when` it comes; an `example`, a line that names it; and the
 * `remedy`. Of length 0, no part. */
uint8_t station_check_explanation(const char *line, size_t line_length,
                                  char *text, size_t room, size_t *length);

/* By which columns a table with these titles, of targets and of directions, is to be read: their
 * numbers, counted from 1, with a comma between, as "2,3"; or the line of the refusal. Titles are
 * looked for by commas, else semicolons, else tabs, never by blanks, in the first row that has that of
 * targets. Blanks around a cell don't count, those of a stated title do; capitals count. 64 bytes are
 * always enough. */
uint8_t station_check_columns(const void *table, size_t table_length,
                              const char *targets, size_t targets_length,
                              const char *directions, size_t directions_length,
                              char *text, size_t room, size_t *length);

/* Where the line of a refusal stands, in the field file or in the sheet or the table of the call that
 * refused; of length 0 where there is none. A row below titles: `what` it is ("block", "sheet row",
 * "table row"; "target", "set" or "observation" among the sheet's rows of these; "station target",
 * "station observation"), its `number` from 1, its `row` among all where it is counted by its kind,
 * and the places, from 0, of its `first` byte and of the `end` after its last; and the same of the
 * part that is meant, `meant_first` and `meant_end`: of a block the byte or the word that its fault
 * speaks of, where it has that, else all. Numbers that aren't there are left out; no row, where the
 * line names nothing. Of `no station` the row is the first of a sheet: pass no table with that line.
 * 256 bytes are always enough. */
uint8_t station_check_place(const char *line, size_t line_length,
                            const void *gsi, size_t gsi_length,
                            const void *other, size_t other_length,
                            char *rows, size_t room, size_t *length);

/* The lines that a report in a language has of the words 12, 13, 17, 18 and 19 of a field file, as
 * they stand, in UTF-8: what it recorded of instrument and time; of one with a fault of its lines,
 * what the blocks before that did. 512 bytes are always enough. */
uint8_t station_check_instrument(const void *gsi, size_t gsi_length, uint32_t language,
                                 char *text, size_t room, size_t *length);

/* The records of a text whose fields `separator` separates, the byte of a comma, a semicolon, a tab
 * or a blank: of each a line of how many bytes its fields have, with commas between, and then the
 * bytes of its fields, one after the other. Quotes around a field belong to none, and of two within
 * them one stands for both; lines without bytes are no records, and a byte order mark at the
 * beginning is part of none. CR, LF or both end a record. */
uint8_t station_check_records(const void *csv, size_t csv_length, uint32_t separator,
                              char *text, size_t room, size_t *length);

#ifdef __cplusplus
}
#endif

#endif
