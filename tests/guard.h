/* guard.h: what the attacks on the C calls share: buffers against guard
 * pages, messages, and numbers by seed. */
#ifndef GUARD_H
#define GUARD_H

#include <stddef.h>
#include <stdint.h>

enum { PAGE = 4096, PATTERN_PERIOD = 251 };

/* Pages between two guards. */
struct pages {
    uint8_t *start;
    size_t size;
};

/* Where a buffer stands in its pages. */
enum place { AT_START, AT_END, PLACES };

extern char current[128];       /* the call under way */

/* The program's name goes before every message; no pages are larger than
 * the most bytes, rounded up. */
void guard_set_up(const char *program, size_t most);

_Noreturn void fail(const char *what);
void *must(void *got);

struct pages new_pages(size_t bytes);
void protect(const struct pages *p, int access);

/* The first of some pages, in order of size, that hold so many bytes. */
const struct pages *fitting(const struct pages *p, size_t n);
uint8_t *placed(const struct pages *p, enum place where, size_t n);

/* Bytes to fill pages with, others at each call. */
const uint8_t *next_pattern(void);

/* Numbers by seed; there is one to begin with. */
void random_seed(uint64_t seed);
uint32_t random32(void);

#endif
