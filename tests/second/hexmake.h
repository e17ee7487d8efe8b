/* hexmake.h: Intel HEX files, good and broken, by seed.
 * Part of the second program, written from documents 01 and 02 alone. */
#ifndef HEXMAKE_H
#define HEXMAKE_H

#include <stdbool.h>
#include <stddef.h>
#include <stdint.h>

enum { FILE_MOST = 1 << 18, FILE_ROOM = FILE_MOST + 4096 };

/* A window and a text for it. */
struct hexmake {
    uint32_t start;
    size_t count;
    uint32_t words[16385];
    uint8_t text[FILE_ROOM];
    size_t length;
};

/* Adds a record with a right sum. */
void add_record(struct hexmake *f, uint32_t length, uint32_t offset,
                uint32_t type, const uint8_t *data);

/* A window of any words; most windows are short, some out of form. */
void make_window(struct hexmake *f);

/* A file for the window: an export of other words than it has, or other
 * records, mutated most often; true if a mutation made another text of it. */
bool make_file(struct hexmake *f);

#endif
