/* hexcases.h: the cases of hexcases.txt.
 * Part of the second program, written from documents 01 and 02 alone. */
#ifndef HEXCASES_H
#define HEXCASES_H

#include <stdbool.h>
#include <stddef.h>
#include <stdint.h>

enum hexcall { HEX_LENGTH, HEX_EXPORT, HEX_LOAD, HEX_CALLS };

struct hexcase {
    const char *name;
    enum hexcall call;
    uint32_t start;
    size_t count;
    uint32_t *words;            /* before; none for a length */
    size_t room;                /* of an export's output */
    uint8_t *text;              /* what an export writes or a load reads */
    size_t length;
    int64_t answer;
    uint32_t *after;            /* the words left */
};

/* Reads the table and asks of each case whether it holds; false, with a
 * message, if one doesn't or the table can't be read. */
bool hexcases_hold(const char *table, bool (*holds)(const struct hexcase *));

#endif
