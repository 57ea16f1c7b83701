/* The five calls that are told by numbers whether something is stated. The proved exports take a
 * `bool`, which is 0 or 1 and nothing else: of another value they would see the lowest bit. These
 * take any number, of which 0 alone says that it is not stated, and hand on 0 or 1. link.sh links
 * them. */
#include "station_check.h"

#include <stdbool.h>

uint8_t station_page_check(const void *gsi, size_t gsi_length,
                           const void *sheet, size_t sheet_length,
                           uint32_t two_c, uint32_t two_i, bool is_stated, uint32_t residual,
                           char *text, size_t room, size_t *length);

uint8_t station_page_compare(const void *gsi, size_t gsi_length,
                             const void *table, size_t table_length,
                             const char *station, size_t station_length,
                             uint32_t two_c, uint32_t two_i,
                             uint32_t unit, uint32_t names, uint32_t directions,
                             bool is_stated, uint32_t within,
                             char *text, size_t room, size_t *length,
                             char *note, size_t note_room, size_t *note_length);

uint8_t station_page_table(const void *gsi, size_t gsi_length,
                           const char *path, size_t path_length,
                           const void *table, size_t table_length,
                           const char *table_path, size_t table_path_length,
                           const char *station, size_t station_length,
                           uint32_t two_c, uint32_t two_i,
                           uint32_t unit, uint32_t names, uint32_t directions,
                           bool is_stated, uint32_t within,
                           char *text, size_t room, size_t *length,
                           char *note, size_t note_room, size_t *note_length);

uint8_t station_page_mark(const void *gsi, size_t gsi_length,
                          const char *station, size_t station_length,
                          const char *code, size_t code_length,
                          const char *sets, size_t sets_length,
                          const char *targets, size_t targets_length,
                          bool same_set_up, bool again, bool others,
                          char *copy, size_t room, size_t *length,
                          char *notes, size_t notes_room, size_t *notes_length);

uint8_t station_page_mark_rows(const void *gsi, size_t gsi_length,
                               const char *station, size_t station_length,
                               const char *code, size_t code_length,
                               const char *sets, size_t sets_length,
                               const char *targets, size_t targets_length,
                               bool same_set_up, bool again, bool others,
                               char *copy, size_t room, size_t *length,
                               char *rows, size_t rows_room, size_t *rows_length);

uint8_t station_check_check(const void *gsi, size_t gsi_length,
                            const void *sheet, size_t sheet_length,
                            uint32_t two_c, uint32_t two_i, uint32_t is_stated, uint32_t residual,
                            char *text, size_t room, size_t *length) {
    return station_page_check(gsi, gsi_length, sheet, sheet_length, two_c, two_i,
                              is_stated != 0, residual, text, room, length);
}

uint8_t station_check_compare(const void *gsi, size_t gsi_length,
                              const void *table, size_t table_length,
                              const char *station, size_t station_length,
                              uint32_t two_c, uint32_t two_i,
                              uint32_t unit, uint32_t names, uint32_t directions,
                              uint32_t is_stated, uint32_t within,
                              char *text, size_t room, size_t *length,
                              char *note, size_t note_room, size_t *note_length) {
    return station_page_compare(gsi, gsi_length, table, table_length, station, station_length,
                                two_c, two_i, unit, names, directions, is_stated != 0, within,
                                text, room, length, note, note_room, note_length);
}

uint8_t station_check_table(const void *gsi, size_t gsi_length,
                            const char *path, size_t path_length,
                            const void *table, size_t table_length,
                            const char *table_path, size_t table_path_length,
                            const char *station, size_t station_length,
                            uint32_t two_c, uint32_t two_i,
                            uint32_t unit, uint32_t names, uint32_t directions,
                            uint32_t is_stated, uint32_t within,
                            char *text, size_t room, size_t *length,
                            char *note, size_t note_room, size_t *note_length) {
    return station_page_table(gsi, gsi_length, path, path_length, table, table_length,
                              table_path, table_path_length, station, station_length,
                              two_c, two_i, unit, names, directions, is_stated != 0, within,
                              text, room, length, note, note_room, note_length);
}

uint8_t station_check_mark(const void *gsi, size_t gsi_length,
                           const char *station, size_t station_length,
                           const char *code, size_t code_length,
                           const char *sets, size_t sets_length,
                           const char *targets, size_t targets_length,
                           uint32_t same_set_up, uint32_t again, uint32_t others,
                           char *copy, size_t room, size_t *length,
                           char *notes, size_t notes_room, size_t *notes_length) {
    return station_page_mark(gsi, gsi_length, station, station_length, code, code_length,
                             sets, sets_length, targets, targets_length,
                             same_set_up != 0, again != 0, others != 0,
                             copy, room, length, notes, notes_room, notes_length);
}

uint8_t station_check_mark_rows(const void *gsi, size_t gsi_length,
                                const char *station, size_t station_length,
                                const char *code, size_t code_length,
                                const char *sets, size_t sets_length,
                                const char *targets, size_t targets_length,
                                uint32_t same_set_up, uint32_t again, uint32_t others,
                                char *copy, size_t room, size_t *length,
                                char *rows, size_t rows_room, size_t *rows_length) {
    return station_page_mark_rows(gsi, gsi_length, station, station_length, code, code_length,
                                  sets, sets_length, targets, targets_length,
                                  same_set_up != 0, again != 0, others != 0,
                                  copy, room, length, rows, rows_room, rows_length);
}
