/* hexmake.c: Intel HEX files, good and broken, by seed.
 * Part of the second program, written from documents 01 and 02 alone. */
#include "hexmake.h"
#include "guard.h"
#include "hexfile.h"

#include <string.h>

enum { SEGMENT = 0x10000, DATA_MOST = 255 };
enum { DATA = 0, END = 1, UPPER = 4 };
/* Where a record's fields stand in its line. */
enum { AT_LENGTH = 1, AT_OFFSET = 3, AT_TYPE = 7, AT_DATA = 9 };

/* A line of the text, without its LF. */
struct line {
    uint8_t *at;
    size_t length;
};

static uint32_t below(uint32_t n)
{
    return random32() % n;
}

static bool chance(uint32_t percent)
{
    return below(100) < percent;
}

/* ---- records ---- */

static void put_hex(uint8_t *at, uint32_t number, int digits)
{
    for (int i = digits; i-- > 0; number >>= 4)
        at[i] = (uint8_t)"0123456789ABCDEF"[number & 15];
}

static uint32_t digit(uint8_t c)
{
    return c >= 'A' ? (c - 'A' + 10u) & 15 : (c - '0') & 15u;
}

static uint32_t get_hex(const uint8_t *at, int digits)
{
    uint32_t number = 0;

    for (int i = 0; i < digits; i++)
        number = number << 4 | digit(at[i]);
    return number;
}

/* Makes the sum right, of whatever stands on the line. */
static void right_sum(struct line l)
{
    uint32_t sum = 0;
    size_t i;

    for (i = 1; i + 4 <= l.length; i += 2)
        sum += get_hex(l.at + i, 2);
    if (i + 2 <= l.length)
        put_hex(l.at + i, (0 - sum) & 0xFF, 2);
}

void add_record(struct hexmake *f, uint32_t length, uint32_t offset,
                uint32_t type, const uint8_t *data)
{
    struct line l = { f->text + f->length, AT_DATA + 2 * length + 2 };

    if (f->length + l.length + 1 > FILE_MOST)
        return;
    l.at[0] = ':';
    put_hex(l.at + AT_LENGTH, length, 2);
    put_hex(l.at + AT_OFFSET, offset, 4);
    put_hex(l.at + AT_TYPE, type, 2);
    for (uint32_t i = 0; i < length; i++)
        put_hex(l.at + AT_DATA + 2 * i, data[i], 2);
    right_sum(l);
    l.at[l.length] = '\n';
    f->length += l.length + 1;
}

static void add_upper(struct hexmake *f, uint32_t upper)
{
    uint8_t data[2] = { (uint8_t)(upper >> 8), (uint8_t)upper };

    add_record(f, 2, 0, UPPER, data);
}

static uint32_t any_length(void)
{
    static const uint8_t some[] = { 0, 1, 2, 3, 4, 5, 15, 16, 17, 32, 255 };

    return chance(80) ? some[below(sizeof some)] : below(DATA_MOST + 1);
}

/* An address for so many bytes, nearly always inside the window. */
static uint32_t any_address(const struct hexmake *f, uint32_t length)
{
    uint32_t bytes = 4 * (uint32_t)f->count;

    if (chance(3))
        return f->start + bytes - length + below(2 * length + 2) - length;
    if (length > bytes)
        return f->start;
    return f->start + below(bytes - length + 1);
}

static void add_data(struct hexmake *f, uint32_t *upper)
{
    uint32_t length = any_length(), address;
    uint8_t data[DATA_MOST];

    if (length > 4 * f->count && chance(95))
        length = 4 * (uint32_t)f->count;
    address = any_address(f, length);
    for (uint32_t i = 0; i < length; i++)
        data[i] = (uint8_t)random32();
    if (address / SEGMENT != *upper || chance(10))
        add_upper(f, *upper = address / SEGMENT);
    add_record(f, length, address % SEGMENT, DATA, data);
}

/* Records of any order and length, and the end. */
static void add_records(struct hexmake *f)
{
    uint32_t upper = 0;

    for (uint32_t n = below(13); n > 0; n--)
        add_data(f, &upper);
    add_record(f, 0, 0, END, NULL);
}

/* ---- mutations ---- */

/* Takes some bytes of the text out and puts others there. */
static void splice(struct hexmake *f, uint8_t *at, size_t out,
                   const void *bytes, size_t in)
{
    size_t behind = f->length - (size_t)(at - f->text) - out;

    if (f->length - out + in > FILE_MOST)
        return;
    memmove(at + in, at + out, behind);
    memcpy(at, bytes, in);
    f->length += in - out;
}

/* Any line; of an empty text, that. */
static struct line any_line(struct hexmake *f)
{
    struct line l = { f->text, 0 };
    uint8_t *end = f->text + f->length, *lf;
    uint32_t lines = 0;

    for (size_t i = 0; i < f->length; i++)
        lines += f->text[i] == '\n';
    for (uint32_t n = below(lines + 1); n > 1; n--)
        l.at = (uint8_t *)memchr(l.at, '\n', (size_t)(end - l.at)) + 1;
    lf = memchr(l.at, '\n', (size_t)(end - l.at));
    l.length = (size_t)((lf == NULL ? end : lf) - l.at);
    return l;
}

/* A line that is long enough for all fields, if a few tries find one. */
static bool any_record(struct hexmake *f, struct line *l)
{
    for (int i = 0; i < 5; i++) {
        *l = any_line(f);
        if (l->length >= AT_DATA + 2)
            return true;
    }
    return false;
}

static void any_digit(struct hexmake *f, bool right)
{
    struct line l;
    uint8_t *digit;

    if (!any_record(f, &l))
        return;
    digit = l.at + 1 + below((uint32_t)l.length - 1);
    put_hex(digit, below(16), 1);
    if (right)
        right_sum(l);
}

static void a_wrong_digit(struct hexmake *f)
{
    any_digit(f, false);
}

static void a_digit_and_sum(struct hexmake *f)
{
    any_digit(f, true);
}

static void lower_case(struct hexmake *f)
{
    struct line l = any_line(f);
    bool all = chance(50);

    for (size_t i = 0; i < l.length; i++)
        if (l.at[i] >= 'A' && l.at[i] <= 'F' && (all || chance(30)))
            l.at[i] = (uint8_t)(l.at[i] - 'A' + 'a');
}

static void a_cr(struct hexmake *f)
{
    struct line l = any_line(f);

    splice(f, l.at + l.length, 0, "\r", 1);
}

static size_t with_lf(const struct hexmake *f, struct line l)
{
    return l.at + l.length < f->text + f->length ? l.length + 1 : l.length;
}

static void a_line_dropped(struct hexmake *f)
{
    struct line l = any_line(f);

    splice(f, l.at, with_lf(f, l), "", 0);
}

/* A line again, at another place. */
static void a_line_twice(struct hexmake *f)
{
    static uint8_t copy[FILE_ROOM];
    struct line l = any_line(f);
    size_t n = with_lf(f, l);

    memcpy(copy, l.at, n);
    splice(f, any_line(f).at, 0, copy, n);
}

static void a_line_moved(struct hexmake *f)
{
    static uint8_t copy[FILE_ROOM];
    struct line l = any_line(f);
    size_t n = with_lf(f, l);

    memcpy(copy, l.at, n);
    splice(f, l.at, n, "", 0);
    splice(f, any_line(f).at, 0, copy, n);
}

/* Another number in some digits of a record, most often with its sum. */
static void other_field(struct hexmake *f, size_t at, int digits,
                        uint32_t (*other)(uint32_t))
{
    struct line l;

    if (!any_record(f, &l))
        return;
    put_hex(l.at + at, other(get_hex(l.at + at, digits))
            & ((1u << 4 * digits) - 1), digits);
    if (chance(80))
        right_sum(l);
}

static uint32_t other_type(uint32_t type)
{
    static const uint8_t types[] = { 0, 1, 2, 3, 4, 5, 6, 0x10, 0x40, 0xFF };

    (void)type;
    return types[below(sizeof types)];
}

static uint32_t other_length(uint32_t length)
{
    return chance(60) ? length + below(5) - 2 : below(256);
}

static uint32_t other_offset(uint32_t offset)
{
    static const uint32_t by[] = { 1, 2, 4, 16, 0x100, 0x8000 };
    uint32_t n = by[below(6)];

    return chance(10) ? random32() : chance(50) ? offset + n : offset - n;
}

static uint32_t other_sum(uint32_t sum)
{
    return sum + 1 + below(255);
}

static void a_type(struct hexmake *f)
{
    other_field(f, AT_TYPE, 2, other_type);
}

static void a_length(struct hexmake *f)
{
    other_field(f, AT_LENGTH, 2, other_length);
}

static void an_offset(struct hexmake *f)
{
    other_field(f, AT_OFFSET, 4, other_offset);
}

static void a_sum(struct hexmake *f)
{
    struct line l;

    if (any_record(f, &l))
        put_hex(l.at + l.length - 2,
                other_sum(get_hex(l.at + l.length - 2, 2)) & 0xFF, 2);
}

static void truncated(struct hexmake *f)
{
    f->length -= below((uint32_t)f->length + 1);
}

/* Bytes behind the end: an LF, a record, any. */
static void garbage_behind(struct hexmake *f)
{
    uint32_t sort = below(4);

    if (sort == 0)
        add_record(f, 0, 0, END, NULL);
    for (uint32_t n = sort == 0 ? 0 : 1 + below(20); n > 0; n--) {
        uint8_t byte = sort == 1 ? '\n' : (uint8_t)random32();

        splice(f, f->text + f->length, 0, &byte, 1);
    }
}

/* A record made apart, put before a line. */
static void put_before(struct hexmake *f, const struct hexmake *made)
{
    splice(f, any_line(f).at, 0, made->text, made->length);
}

static void a_record_more(struct hexmake *f)
{
    static struct hexmake made;
    uint32_t upper = 0;

    made.start = f->start;
    made.count = f->count;
    made.length = 0;
    add_data(&made, &upper);
    put_before(f, &made);
}

static void an_upper_more(struct hexmake *f)
{
    static struct hexmake made;

    made.length = 0;
    add_upper(&made, chance(50) ? f->start / SEGMENT : random32() & 0xFFFF);
    put_before(f, &made);
}

static void any_byte(struct hexmake *f)
{
    struct line l = any_line(f);
    uint8_t byte = chance(30) ? '\n' : (uint8_t)random32();
    uint32_t place = below((uint32_t)l.length + 1);
    size_t out = l.at + place < f->text + f->length ? below(2) : 0;

    splice(f, l.at + place, out, &byte, below(2));
}

static void mutate(struct hexmake *f)
{
    static void (*const mutations[])(struct hexmake *) = {
        a_wrong_digit, a_digit_and_sum, lower_case, a_cr, a_line_dropped,
        a_line_twice, a_line_moved, a_type, a_length, an_offset, a_sum,
        truncated, garbage_behind, a_record_more, an_upper_more, any_byte
    };

    mutations[below(sizeof mutations / sizeof mutations[0])](f);
}

/* ---- windows and files ---- */

static uint32_t any_start(void)
{
    static const uint32_t some[] = {
        0, 4, 0x100, 0xFFF0, 0xFFFC, 0x10000, 0x1FFE4, 0x7FFFFFF8,
        0xFFFF0000, 0xFFFFFF80, 0xFFFFFFF0, 0xFFFFFFFC
    };
    uint32_t start = chance(75) ? some[below(12)] : random32() & ~3u;

    return chance(2) ? start + 1 + below(3) : start;
}

static void any_words(struct hexmake *f)
{
    for (size_t i = 0; i < f->count; i++)
        f->words[i] = random32();
}

void make_window(struct hexmake *f)
{
    f->start = any_start();
    f->count = chance(90) ? below(40) : below(500);
    if (chance(2))
        f->count = HEX_WORDS_MOST - 1 + below(3);
    any_words(f);
}

/* Some mutations in a row; true if they leave another text. */
static bool mutated(struct hexmake *f)
{
    static uint8_t before[FILE_ROOM];
    size_t length = f->length;

    memcpy(before, f->text, length);
    for (uint32_t n = chance(70) ? 1 : 2 + below(3); n > 0; n--)
        mutate(f);
    return f->length != length || memcmp(f->text, before, length) != 0;
}

bool make_file(struct hexmake *f)
{
    int64_t length = -1;

    f->length = 0;
    if (chance(40))
        length = hexfile_export(f->words, f->count, f->start, f->text,
                                FILE_MOST);
    any_words(f);
    if (length >= 0)
        f->length = (size_t)length;
    else
        add_records(f);
    return chance(80) && mutated(f);
}
