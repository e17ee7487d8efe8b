/* hexcompare.c: the C calls on windows against the second program's, with
 * their buffers against guard pages.
 *
 *   hexcompare hexcases.txt [MUTATED [SEED]]
 *
 * Runs the cases of the table, windows and output lengths of every sort,
 * and generated files, as many as it takes until MUTATED of them (10,000 if
 * not given) are mutated ones. What a call must not change lies in pages
 * that can't be written meanwhile; after it every byte of the others is
 * compared. A refused load is compared with the words before it, and a good
 * export is loaded again, without a look at the second program. */
#define _POSIX_C_SOURCE 200809L
#include "guard.h"
#include "hexcall.h"
#include "hexcases.h"
#include "hexfile.h"
#include "hexmake.h"

#include <stdio.h>
#include <stdlib.h>
#include <string.h>
#include <sys/mman.h>
#include <time.h>

enum { SIZES = 3, CODES = HEX_SHORT_OUTPUT + 1, MUTATED = 10000 };

/* A window, and where its words and the other buffer are to stand. */
struct window {
    const char *name;
    uint32_t start;
    size_t count;
    const uint32_t *words;
    enum place words_at, other_at;
};

/* Pages of several sizes, so that a small buffer costs little. */
static const size_t sizes[SIZES] = { PAGE, 1 << 17, FILE_ROOM };
static struct pages memories[SIZES], others[SIZES];
static unsigned long calls, reached[HEX_CALLS][CODES];
static const char *const call_names[] = { "length", "export", "load" };

/* ---- a call ---- */

static void name_call(const struct window *w, enum hexcall call, size_t other)
{
    snprintf(current, sizeof current, "%s: %s, start %08X, %zu words at the "
             "%s, %zu bytes at the %s of their pages", w->name,
             call_names[call], (unsigned)w->start, w->count,
             w->words_at == AT_START ? "start" : "end", other,
             w->other_at == AT_START ? "start" : "end");
}

static void same_answer(enum hexcall call, int64_t answer, int64_t wanted)
{
    calls++;
    if (answer != wanted) {
        printf("answered %lld, wanted %lld\n", (long long)answer,
               (long long)wanted);
        fail("another answer");
    }
    reached[call][wanted < 0 ? -wanted : 0]++;
}

/* The pages hold the bytes at the place, and elsewhere what filled them. */
static void same_pages(const struct pages *p, const uint8_t *fill,
                       const uint8_t *at, const void *bytes, size_t n)
{
    size_t before = (size_t)(at - p->start), behind = before + n;

    if (memcmp(p->start, fill, before) != 0)
        fail("a byte before it changed");
    if (n > 0 && memcmp(at, bytes, n) != 0)
        fail("other bytes");
    if (memcmp(p->start + behind, fill + behind, p->size - behind) != 0)
        fail("a byte behind it changed");
}

/* Fills the pages, and puts the bytes at their place. */
static uint8_t *put(const struct pages *p, const uint8_t *fill,
                    enum place where, const void *bytes, size_t n)
{
    uint8_t *at = placed(p, where, n);

    memcpy(p->start, fill, p->size);
    if (bytes != NULL && n > 0)
        memcpy(at, bytes, n);
    return at;
}

static void call_length(const struct window *w, int64_t wanted)
{
    name_call(w, HEX_LENGTH, 0);
    same_answer(HEX_LENGTH, s5933_hex_length(w->count, w->start), wanted);
}

static void call_export(const struct window *w, size_t room, int64_t wanted,
                        const uint8_t *text)
{
    size_t size = w->count * sizeof *w->words;
    const struct pages *memory = fitting(memories, size);
    const struct pages *other = fitting(others, room);
    const uint8_t *fill = next_pattern();
    void *words = put(memory, fill, w->words_at, w->words, size);
    uint8_t *out = put(other, fill, w->other_at, NULL, room);

    name_call(w, HEX_EXPORT, room);
    protect(memory, PROT_READ);
    same_answer(HEX_EXPORT, s5933_hex_export(words, w->count, w->start, out,
                                             room), wanted);
    same_pages(other, fill, out, text, wanted < 0 ? 0 : (size_t)wanted);
    protect(memory, PROT_READ | PROT_WRITE);
}

static void call_load(const struct window *w, const uint8_t *text,
                      size_t length, int64_t wanted, const uint32_t *after)
{
    size_t size = w->count * sizeof *w->words;
    const struct pages *memory = fitting(memories, size);
    const struct pages *other = fitting(others, length);
    const uint8_t *fill = next_pattern();
    uint8_t *words = put(memory, fill, w->words_at, w->words, size);
    uint8_t *lent = put(other, fill, w->other_at, text, length);

    name_call(w, HEX_LOAD, length);
    protect(other, PROT_READ);
    same_answer(HEX_LOAD, s5933_hex_load((void *)words, w->count, w->start,
                                         lent, length), wanted);
    same_pages(memory, fill, words, wanted < 0 ? w->words : after, size);
    protect(other, PROT_READ | PROT_WRITE);
}

/* ---- against the second program ---- */

/* The next of the four pairs of places; false behind the last. */
static bool next_places(struct window *w)
{
    if (++w->other_at < PLACES)
        return true;
    w->other_at = AT_START;
    return ++w->words_at < PLACES;
}

static void compare_export(struct window w, size_t room)
{
    static uint8_t text[FILE_ROOM];
    int64_t wanted = hexfile_export(w.words, w.count, w.start, text, room);

    call_length(&w, hexfile_length(w.count, w.start));
    do
        call_export(&w, room, wanted, text);
    while (next_places(&w));
}

static void compare_load(struct window w, const uint8_t *text, size_t length)
{
    static uint32_t after[HEX_WORDS_MOST + 1];
    int64_t wanted;

    memcpy(after, w.words, w.count * sizeof *after);
    wanted = hexfile_load(after, w.count, w.start, text, length);
    do
        call_load(&w, text, length, wanted, after);
    while (next_places(&w));
}

/* ---- the table ---- */

static bool holds(const struct hexcase *c)
{
    struct window w = { c->name, c->start, c->count, c->words, 0, 0 };

    if (c->call == HEX_LENGTH) {
        call_length(&w, c->answer);
        return true;
    }
    do {
        if (c->call == HEX_EXPORT)
            call_export(&w, c->room, c->answer, c->text);
        else
            call_load(&w, c->text, c->length, c->answer, c->after);
    } while (next_places(&w));
    return true;
}

/* ---- windows ---- */

static const uint32_t starts[] = {
    0, 4, 8, 0xC, 0x10, 0xFFF0, 0xFFF4, 0xFFF8, 0xFFFC, 0x10000, 0x1FFEC,
    0x8000, 0x7FFFFFF0, 0x7FFFFFFC, 0xFFFEFFFC, 0xFFFF0000, 0xFFFF0004,
    0xFFFF8000, 0xFFFFFFE4, 0xFFFFFFF0, 0xFFFFFFF4, 0xFFFFFFF8, 0xFFFFFFFC,
    1, 2, 3, 0xFFFD, 0xFFFFFFFD, 0xFFFFFFFE, 0xFFFFFFFF
};
static const size_t counts[] = {
    0, 1, 2, 3, 4, 5, 6, 7, 8, 9, 13, 64, 1000, 16381, 16383, 16384, 16385
};

enum { STARTS = sizeof starts / sizeof starts[0] };

static uint32_t words[HEX_WORDS_MOST + 1];

static struct window any_window(const char *name, uint32_t start,
                                size_t count)
{
    struct window w = { name, start, count, words, 0, 0 };

    for (size_t i = 0; i < count; i++)
        words[i] = random32();
    return w;
}

/* What the call exports comes back by the call, over other words. */
static void comes_back(struct window w)
{
    static uint8_t text[FILE_ROOM];
    static uint32_t first[HEX_WORDS_MOST];
    int64_t length = s5933_hex_export(w.words, w.count, w.start, text,
                                      sizeof text);

    memcpy(first, w.words, w.count * sizeof *first);
    w = any_window("comes back", w.start, w.count);
    do
        call_load(&w, text, (size_t)length, 0, first);
    while (next_places(&w));
}

static void windows(void)
{
    for (size_t i = 0; i < STARTS; i++)
        for (size_t k = 0; k < sizeof counts / sizeof counts[0]; k++) {
            struct window w = any_window("windows", starts[i], counts[k]);
            int64_t length = hexfile_length(w.count, w.start);

            compare_export(w, length < 0 ? 100 : (size_t)length);
            compare_export(w, length < 0 ? 0 : (size_t)length - 1);
            if (length >= 0)
                comes_back(w);
        }
}

/* All small counts, all near the most, some between; and windows that no
 * memory could hold. */
static size_t next_count(size_t count)
{
    return count < 64 || count >= HEX_WORDS_MOST - 64 ? count + 1
         : count + 61 < HEX_WORDS_MOST ? count + 61 : HEX_WORDS_MOST;
}

static void lengths(void)
{
    static const size_t beyond[] = {
        0x7FFF, 0xFFFFFFFF, 0x40000000, 0x40000001, SIZE_MAX / 4,
        SIZE_MAX / 4 + 1, SIZE_MAX - 1, SIZE_MAX
    };
    struct window w = { "lengths", 0, 0, NULL, 0, 0 };

    for (size_t i = 0; i < STARTS; i++) {
        w.start = starts[i];
        for (w.count = 0; w.count <= HEX_WORDS_MOST + 1;
             w.count = next_count(w.count))
            call_length(&w, hexfile_length(w.count, w.start));
        for (size_t k = 0; k < sizeof beyond / sizeof beyond[0]; k++) {
            w.count = beyond[k];
            call_length(&w, hexfile_length(w.count, w.start));
        }
    }
}

/* From none to one more than enough. */
static void every_output(void)
{
    static const struct { uint32_t start; size_t count; } some[] = {
        { 0, 0 }, { 0, 1 }, { 0x100, 4 }, { 0xFFF8, 5 }, { 0xFFFFFFFC, 2 },
        { 0xFFFFFFE4, 20 }, { 2, 1 }
    };

    for (size_t i = 0; i < sizeof some / sizeof some[0]; i++) {
        struct window w = any_window("every output", some[i].start,
                                     some[i].count);

        for (int64_t room = 0; room <= hexfile_length(20, 0xFFFFFFE4) + 1;
             room++)
            compare_export(w, (size_t)room);
    }
}

/* An export cut off after each of its bytes. */
static void every_text(void)
{
    static uint8_t text[4096];
    struct window w = any_window("every text", 0xFFFFFFE8, 9);
    int64_t length = hexfile_export(w.words, w.count, w.start, text,
                                    sizeof text);

    w = any_window("every text", w.start, w.count);
    for (size_t n = 0; n <= (size_t)length; n++)
        compare_load(w, text, n);
}

/* Two windows of a word or more that differ in one thing export apart. */
static void exports_apart(uint32_t start, size_t count)
{
    static uint8_t one[FILE_ROOM], two[FILE_ROOM];
    struct window w = any_window("exports apart", start, count);
    const struct { uint32_t start; size_t count; uint32_t bit; } other[] = {
        { start + 4, count, 0 }, { start ^ 0x10000, count, 0 },
        { start ^ 0x80000000, count, 0 }, { start, count + 1, 0 },
        { start, count, 1u << random32() % 32 }
    };
    int64_t length = s5933_hex_export(words, count, start, one, sizeof one);

    name_call(&w, HEX_EXPORT, sizeof one);
    for (size_t i = 0; i < sizeof other / sizeof other[0]; i++) {
        words[count / 2] ^= other[i].bit;
        if (s5933_hex_export(words, other[i].count, other[i].start, two,
                             sizeof two) == length
            && memcmp(one, two, (size_t)length) == 0)
            fail("two windows export alike");
    }
}

static void all_exports_apart(void)
{
    for (size_t i = 0; i < STARTS; i++)
        for (size_t count = 1; count < 9; count++)
            if (starts[i] % 4 == 0)
                exports_apart(starts[i], count);
}

/* ---- generated files ---- */

/* Until so many were mutated; gives how many they were in all. */
static unsigned long files(unsigned long mutated)
{
    static struct hexmake f;
    unsigned long i = 0;
    char name[32];

    memset(reached, 0, sizeof reached);
    for (unsigned long n = 0; n < mutated; i++) {
        struct window w = { name, 0, 0, f.words, 0, 0 };
        size_t enough;

        snprintf(name, sizeof name, "file %lu", i);
        make_window(&f);
        n += make_file(&f);
        w.start = f.start;
        w.count = f.count;
        compare_load(w, f.text, f.length);
        if (i % 8 == 0) {
            enough = (size_t)hexfile_length(f.count % 16384, f.start & ~3u);
            compare_export(w, enough - random32() % 2);
        }
    }
    return i;
}

/* The files met every code, and often enough to mean something. */
static void all_reached(unsigned long files)
{
    static const struct { enum hexcall call; int code, share; } codes[] = {
        { HEX_LENGTH, 0, 20 }, { HEX_LENGTH, HEX_BAD_WINDOW, 1000 },
        { HEX_EXPORT, 0, 20 }, { HEX_EXPORT, HEX_BAD_WINDOW, 200 },
        { HEX_EXPORT, HEX_SHORT_OUTPUT, 20 },
        { HEX_LOAD, 0, 2 }, { HEX_LOAD, HEX_BAD_WINDOW, 20 },
        { HEX_LOAD, HEX_NOT_A_RECORD, 2 }, { HEX_LOAD, HEX_WRONG_SUM, 5 },
        { HEX_LOAD, HEX_OUTSIDE, 5 }, { HEX_LOAD, HEX_NO_END, 5 }
    };

    snprintf(current, sizeof current, "codes");
    for (size_t i = 0; i < sizeof codes / sizeof codes[0]; i++) {
        unsigned long n = reached[codes[i].call][codes[i].code];

        printf("files, %s, code %d: %lu times\n", call_names[codes[i].call],
               codes[i].code, n);
        if (n < files / (unsigned long)codes[i].share)
            fail("a code was not met often enough");
    }
}

/* ---- time ---- */

enum { MEGABYTE = 1 << 20, LINE_MOST = 600, TRIES = 5 };
enum { SIXTEEN, LONGEST, EMPTY, SINGLE, UPPERS, NO_END, WRONG, NO_LF, SORTS };

static double seconds(void)
{
    struct timespec t;

    clock_gettime(CLOCK_PROCESS_CPUTIME_ID, &t);
    return (double)t.tv_sec + (double)t.tv_nsec / 1e9;
}

/* Whole records of one sort, about n bytes; gives how many they are. */
static size_t long_text(uint8_t *text, size_t n, int sort)
{
    static const uint32_t lengths[] = { 16, 255, 0, 1, 2, 16, 16, 16 };
    static const uint8_t data[255] = { 1 };
    static struct hexmake f;
    size_t used = 0;

    memset(text, 'A', n);
    for (uint32_t i = 0; sort != NO_LF && used + LINE_MOST <= n; i++) {
        f.length = 0;
        if (sort == UPPERS)
            add_record(&f, 2, 0, 4, data);
        else
            add_record(&f, lengths[sort], i * 7919 % 0xFF00, 0, data);
        memcpy(text + used, f.text, f.length);
        used += f.length;
    }
    if (sort == NO_END || sort == NO_LF)
        return sort == NO_LF ? n : used;
    memcpy(text + used, sort == WRONG ? ":00000001FE\n" : ":00000001FF\n", 12);
    return used + 12;
}

/* The least of some runs. */
static double time_of(const uint8_t *text, size_t n, int64_t wanted)
{
    double least = 1e9;

    for (int i = 0; i < TRIES; i++) {
        double start = seconds(), spent;
        int64_t answer = s5933_hex_load(words, HEX_WORDS_MOST, 0, text, n);

        spent = seconds() - start;
        least = spent < least ? spent : least;
        same_answer(HEX_LOAD, answer, wanted);
    }
    return least;
}

/* Twice the text takes about twice the time. */
static void linear(void)
{
    static const int64_t wanted[SORTS] = {
        0, 0, 0, 0, 0, -HEX_NO_END, -HEX_WRONG_SUM, -HEX_NOT_A_RECORD
    };
    uint8_t *text = must(malloc(2 * MEGABYTE));

    for (int sort = 0; sort < SORTS; sort++) {
        double one = 0, two = 1;

        snprintf(current, sizeof current, "a text of sort %d", sort);
        for (int i = 0; i < TRIES && two > 2.5 * one && two > 1e-4; i++) {
            one = time_of(text, long_text(text, MEGABYTE, sort),
                          wanted[sort]);
            two = time_of(text, long_text(text, 2 * MEGABYTE, sort),
                          wanted[sort]);
        }
        printf("sort %d: 1 MB %.2f ms, 2 MB %.2f ms\n", sort, one * 1e3,
               two * 1e3);
        if (two > 2.5 * one && two > 1e-4)
            fail("2 MB take more than 2.5 times as long as 1 MB");
    }
    free(text);
}

int main(int argc, char **argv)
{
    unsigned long mutated = argc > 2 ? strtoul(argv[2], NULL, 10) : MUTATED;
    unsigned long n;

    if (argc < 2) {
        fputs("usage: hexcompare hexcases.txt [MUTATED [SEED]]\n", stderr);
        return 2;
    }
    guard_set_up("hexcompare", FILE_ROOM);
    random_seed(argc > 3 ? strtoul(argv[3], NULL, 10) : 1);
    for (int i = 0; i < SIZES; i++) {
        memories[i] = new_pages(sizes[i]);
        others[i] = new_pages(sizes[i]);
    }
    if (!hexcases_hold(argv[1], holds))
        return 1;
    lengths();
    windows();
    every_output();
    every_text();
    all_exports_apart();
    n = files(mutated);
    all_reached(n);
    linear();
    printf("hexcompare: %lu calls, %lu files, %lu of them mutated\n", calls,
           n, mutated);
    return 0;
}
