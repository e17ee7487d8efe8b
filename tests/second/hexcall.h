/* hexcall.h: the C calls on windows, as their tests know them. A header
 * that declares them otherwise does not compile beside this one. */
#ifndef HEXCALL_H
#define HEXCALL_H

#include "s5933.h"

int64_t s5933_hex_length(size_t count, uint32_t start);
int64_t s5933_hex_export(const uint32_t *words, size_t count, uint32_t start,
                         uint8_t *out, size_t room);
int64_t s5933_hex_load(uint32_t *words, size_t count, uint32_t start,
                       const uint8_t *text, size_t length);

#endif
