/* hexfile.h: memory windows as Intel HEX.
 * Part of the second program, written from documents 01 and 02 alone. */
#ifndef HEXFILE_H
#define HEXFILE_H

#include <stddef.h>
#include <stdint.h>

/* Codes; a refusal answers the code's negative. */
enum {
    HEX_BAD_WINDOW = 2, HEX_NOT_A_RECORD = 16, HEX_WRONG_SUM = 17,
    HEX_OUTSIDE = 18, HEX_NO_END = 19, HEX_SHORT_OUTPUT = 24
};

enum { HEX_WORDS_MOST = 16384 };

/* The bytes of a window's export. */
int64_t hexfile_length(size_t count, uint32_t start);

/* Writes the export, and answers its length; room is the output's. */
int64_t hexfile_export(const uint32_t *words, size_t count, uint32_t start,
                       uint8_t *out, size_t room);

/* Puts the text's bytes in the window; answers 0. A refused text leaves
 * every word. */
int64_t hexfile_load(uint32_t *words, size_t count, uint32_t start,
                     const uint8_t *text, size_t length);

#endif
