/* hexfile.c: memory windows as Intel HEX.
 * Part of the second program, written from documents 01 and 02 alone. */
#include "hexfile.h"

#include <stdbool.h>
#include <string.h>

enum { DATA = 0, END = 1, UPPER = 4 };          /* types of record */
enum {
    DATA_MOST = 16,             /* data bytes of a record written */
    READ_MOST = 255,            /* and of one read */
    BARE = 12,                  /* characters of a record without data */
    UPPER_RECORD = BARE + 4,
    SEGMENT = 0x10000,          /* addresses with the same upper bits */
    IMAGE = 4 * HEX_WORDS_MOST
};

static const char end_record[BARE + 1] = ":00000001FF\n";

static bool bad_window(size_t count, uint32_t start)
{
    return start % 4 != 0 || count > HEX_WORDS_MOST;
}

/* How many of so many bytes, from the address on, have its upper bits. */
static size_t same_upper(uint32_t address, size_t bytes)
{
    size_t most = SEGMENT - address % SEGMENT;

    return bytes < most ? bytes : most;
}

/* ---- writing ---- */

/* Every byte's two digits. */
#define ROW(h) h "0" h "1" h "2" h "3" h "4" h "5" h "6" h "7" \
               h "8" h "9" h "A" h "B" h "C" h "D" h "E" h "F"
static const char digits[] =
    ROW("0") ROW("1") ROW("2") ROW("3") ROW("4") ROW("5") ROW("6") ROW("7")
    ROW("8") ROW("9") ROW("A") ROW("B") ROW("C") ROW("D") ROW("E") ROW("F");

static uint8_t *put_byte(uint8_t *at, uint32_t byte)
{
    memcpy(at, digits + 2 * (byte & 0xFF), 2);
    return at + 2;
}

static uint8_t *put_head(uint8_t *at, uint32_t length, uint32_t offset,
                         uint32_t type)
{
    *at++ = ':';
    at = put_byte(at, length);
    at = put_byte(at, offset >> 8);
    at = put_byte(at, offset);
    return put_byte(at, type);
}

static uint8_t *put_end(uint8_t *at, uint32_t sum)
{
    at = put_byte(at, 0 - sum);
    *at++ = '\n';
    return at;
}

static uint8_t *put_upper(uint8_t *at, uint32_t upper)
{
    at = put_head(at, 2, 0, UPPER);
    at = put_byte(at, upper >> 8);
    at = put_byte(at, upper);
    return put_end(at, 2 + UPPER + (upper >> 8) + upper);
}

static uint8_t *put_data(uint8_t *at, uint32_t offset, const uint32_t *words,
                         uint32_t bytes)
{
    uint32_t sum = bytes + (offset >> 8) + offset;

    at = put_head(at, bytes, offset, DATA);
    for (uint32_t i = 0; i < bytes / 4; i++) {
        uint32_t word = words[i];

        sum += word + (word >> 8) + (word >> 16) + (word >> 24);
        at = put_byte(at, word);
        at = put_byte(at, word >> 8);
        at = put_byte(at, word >> 16);
        at = put_byte(at, word >> 24);
    }
    return put_end(at, sum);
}

/* The characters of bytes with the same upper bits, and of those bits. */
static size_t segment_length(size_t bytes)
{
    size_t left = bytes % DATA_MOST;

    return UPPER_RECORD + bytes / DATA_MOST * (BARE + 2 * DATA_MOST)
         + (left == 0 ? 0 : BARE + 2 * left);
}

int64_t hexfile_length(size_t count, uint32_t start)
{
    size_t first, rest;

    if (bad_window(count, start))
        return -HEX_BAD_WINDOW;
    first = same_upper(start, 4 * count);
    rest = 4 * count - first;
    return (int64_t)(segment_length(first)
                     + (rest == 0 ? 0 : segment_length(rest)) + BARE);
}

int64_t hexfile_export(const uint32_t *words, size_t count, uint32_t start,
                       uint8_t *out, size_t room)
{
    int64_t length = hexfile_length(count, start);
    size_t bytes = 4 * count, done = 0;
    uint8_t *at = out;

    if (length < 0)
        return length;
    if (room < (size_t)length)
        return -HEX_SHORT_OUTPUT;
    do {
        uint32_t address = start + (uint32_t)done;
        size_t part = done + same_upper(address, bytes - done);

        at = put_upper(at, address >> 16);
        while (done < part) {
            size_t n = part - done < DATA_MOST ? part - done : DATA_MOST;

            at = put_data(at, (start + (uint32_t)done) % SEGMENT,
                          words + done / 4, (uint32_t)n);
            done += n;
        }
    } while (done < bytes);
    memcpy(at, end_record, BARE);
    return length;
}

/* ---- reading ---- */

/* Length, offset of two bytes, type, data, sum. */
enum { AT_LENGTH, AT_OFFSET, AT_TYPE = 3, AT_DATA, AROUND };

struct record {
    uint8_t byte[AROUND + READ_MOST];
    uint32_t length;            /* data bytes */
};

/* A digit's value and one; zero is none. */
static const uint8_t value_1[256] = {
    ['0'] = 1, ['1'] = 2, ['2'] = 3, ['3'] = 4, ['4'] = 5, ['5'] = 6,
    ['6'] = 7, ['7'] = 8, ['8'] = 9, ['9'] = 10, ['A'] = 11, ['B'] = 12,
    ['C'] = 13, ['D'] = 14, ['E'] = 15, ['F'] = 16
};

/* The byte of two digits; above 255 if one is none. */
static uint32_t get_byte(const uint8_t *at)
{
    uint32_t high = value_1[at[0]] - 1u, low = value_1[at[1]] - 1u;

    return high << 4 | low;
}

static uint32_t get_two(const uint8_t *byte)
{
    return (uint32_t)byte[0] << 8 | byte[1];
}

/* Whether length and offset are those that its type may have. */
static bool is_of_type(const struct record *r)
{
    uint32_t offset = get_two(r->byte + AT_OFFSET);

    switch (r->byte[AT_TYPE]) {
    case DATA: return true;
    case END: return r->length == 0 && offset == 0;
    case UPPER: return r->length == 2 && offset == 0;
    default: return false;
    }
}

/* Reads the record that the text begins with; answers the code of one that
 * is none or has a wrong sum. */
static int get_record(struct record *r, const uint8_t *text, size_t left)
{
    uint32_t all = 0, sum = 0;

    if (left < BARE || text[0] != ':')
        return HEX_NOT_A_RECORD;
    r->length = get_byte(text + 1);
    if (r->length > READ_MOST || left < BARE + 2 * r->length
        || text[BARE - 1 + 2 * r->length] != '\n')
        return HEX_NOT_A_RECORD;
    for (uint32_t i = 0; i < r->length + AROUND; i++) {
        uint32_t byte = get_byte(text + 1 + 2 * i);

        all |= byte;
        sum += byte;
        r->byte[i] = (uint8_t)byte;
    }
    if (all > 0xFF || !is_of_type(r))
        return HEX_NOT_A_RECORD;
    return sum % 256 == 0 ? 0 : HEX_WRONG_SUM;
}

/* Puts the records' bytes in the image of a window; answers the code. The
 * image of a refused text may have changed. */
static int get_text(uint8_t *image, size_t bytes, uint32_t start,
                    const uint8_t *text, size_t length)
{
    uint32_t upper = 0;
    struct record r;

    for (size_t at = 0; at < length; at += BARE + 2 * r.length) {
        int code = get_record(&r, text + at, length - at);

        if (code != 0)
            return code;
        if (r.byte[AT_TYPE] == END)
            return at + BARE == length ? 0 : HEX_NO_END;
        if (r.byte[AT_TYPE] == UPPER) {
            upper = get_two(r.byte + AT_DATA) << 16;
        } else if (r.length > 0) {
            uint32_t place = upper + get_two(r.byte + AT_OFFSET) - start;

            if (place >= bytes || r.length > bytes - place)
                return HEX_OUTSIDE;
            memcpy(image + place, r.byte + AT_DATA, r.length);
        }
    }
    return HEX_NO_END;
}

int64_t hexfile_load(uint32_t *words, size_t count, uint32_t start,
                     const uint8_t *text, size_t length)
{
    uint8_t image[IMAGE];
    int code;

    if (bad_window(count, start))
        return -HEX_BAD_WINDOW;
    for (size_t i = 0; i < count; i++)
        for (size_t k = 0; k < 4; k++)
            image[4 * i + k] = (uint8_t)(words[i] >> 8 * k);
    code = get_text(image, 4 * count, start, text, length);
    for (size_t i = 0; code == 0 && i < count; i++)
        words[i] = image[4 * i] | (uint32_t)image[4 * i + 1] << 8
                 | (uint32_t)image[4 * i + 2] << 16
                 | (uint32_t)image[4 * i + 3] << 24;
    return -code;
}
