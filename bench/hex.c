/* hex.c: the processor time of the C calls on windows, and of the second
 * program's.
 *
 *   hex
 *
 * Prints a line for each work: export or load, the window's words, the
 * bytes of the text, and the nanoseconds that a call took, the least of some
 * tries, by the archive and by the second program. Both answer alike, or it
 * ends with status 1. A text longer than an export has its data records
 * again and again, before one end; load-N and load-N+K are of texts with
 * records of N bytes, from address 0 or K on. */
#define _POSIX_C_SOURCE 200809L
#include "hexcall.h"
#include "hexfile.h"

#include <stdio.h>
#include <stdlib.h>
#include <string.h>
#include <time.h>

enum { TRIES = 5, LEAST = 20000000, END_RECORD = 12, TEXT_MOST = 1 << 22 };

/* A call on the window and the text. */
typedef int64_t work(size_t count, size_t length);

static uint32_t words[HEX_WORDS_MOST];
static uint8_t text[TEXT_MOST], output[1 << 18];

static int64_t archive_export(size_t count, size_t length)
{
    return s5933_hex_export(words, count, 0, output, length);
}

static int64_t second_export(size_t count, size_t length)
{
    return hexfile_export(words, count, 0, output, length);
}

static int64_t archive_load(size_t count, size_t length)
{
    return s5933_hex_load(words, count, 0, text, length);
}

static int64_t second_load(size_t count, size_t length)
{
    return hexfile_load(words, count, 0, text, length);
}

static long long nanoseconds(void)
{
    struct timespec t;

    clock_gettime(CLOCK_PROCESS_CPUTIME_ID, &t);
    return t.tv_sec * 1000000000LL + t.tv_nsec;
}

/* The nanoseconds of a call, over as many as take a while. */
static long long time_once(work *call, size_t count, size_t length,
                           int64_t wanted)
{
    long long start = nanoseconds(), spent, calls = 0;

    do {
        if (call(count, length) != wanted) {
            fputs("hex: another answer\n", stderr);
            exit(1);
        }
        calls++;
        spent = nanoseconds() - start;
    } while (spent < LEAST);
    return spent / calls;
}

static void print_times(const char *name, work *archive, work *second,
                        size_t count, size_t length, int64_t wanted)
{
    long long least[2] = { 0, 0 };

    for (int i = 0; i < TRIES; i++)
        for (int k = 0; k < 2; k++) {
            long long t = time_once(k == 0 ? archive : second, count, length,
                                    wanted);

            if (i == 0 || t < least[k])
                least[k] = t;
        }
    printf("%s %zu %zu %lld %lld\n", name, count, length, least[0],
           least[1]);
}

/* Makes the text: the window's export, its records again up to so many
 * bytes, and the end. */
static size_t make_text(size_t count, size_t most)
{
    size_t length = (size_t)hexfile_export(words, count, 0, text, TEXT_MOST);
    size_t records = length - END_RECORD, used = records;

    while (used + length <= most) {
        memcpy(text + used, text, records);
        used += records;
    }
    memcpy(text + used, ":00000001FF\n", END_RECORD);
    return used + END_RECORD;
}

static uint32_t byte_of_window(size_t at)
{
    return words[at / 4] >> 8 * (at % 4) & 0xFF;
}

/* Writes a data record of so many bytes of the window; answers its length. */
static size_t put_record(uint8_t *out, size_t address, size_t size)
{
    char *to = (char *)out;
    uint32_t sum = (uint32_t)(size + (address >> 8) + address);

    to += sprintf(to, ":%02zX%04zX00", size, address);
    for (size_t i = 0; i < size; i++) {
        sum += byte_of_window(address + i);
        to += sprintf(to, "%02X", byte_of_window(address + i));
    }
    to += sprintf(to, "%02X\n", -sum & 0xFF);
    return (size_t)(to - (char *)out);
}

/* Makes the text: the window's bytes from an address on, in records of one
 * size, and the end. */
static size_t make_records(size_t size, size_t from)
{
    size_t used = 0;

    for (size_t at = from; at + size <= sizeof words; at += size)
        used += put_record(text + used, at, size);
    memcpy(text + used, ":00000001FF\n", END_RECORD);
    return used + END_RECORD;
}

int main(void)
{
    static const size_t counts[] = { 256, 2048, HEX_WORDS_MOST };
    static const struct { const char *name; size_t size, from; } records[] = {
        { "load-1", 1, 0 }, { "load-2", 2, 0 }, { "load-3", 3, 0 },
        { "load-4", 4, 0 }, { "load-8", 8, 0 }, { "load-20", 20, 0 },
        { "load-32", 32, 0 }, { "load-255", 255, 0 }, { "load-4+1", 4, 1 },
        { "load-4+2", 4, 2 }, { "load-16+1", 16, 1 }, { "load-16+2", 16, 2 }
    };

    for (size_t i = 0; i < HEX_WORDS_MOST; i++)
        words[i] = (uint32_t)(i * 2654435761u);
    for (size_t i = 0; i < 3; i++) {
        size_t length = (size_t)hexfile_length(counts[i], 0);

        print_times("export", archive_export, second_export, counts[i],
                    length, (int64_t)length);
    }
    for (size_t i = 0; i < 3; i++)
        print_times("load", archive_load, second_load, counts[i],
                    make_text(counts[i], 0), 0);
    for (size_t most = 1 << 20; most <= TEXT_MOST; most *= 2)
        print_times("load-long", archive_load, second_load, HEX_WORDS_MOST,
                    make_text(HEX_WORDS_MOST, most), 0);
    for (size_t i = 0; i < sizeof records / sizeof *records; i++)
        print_times(records[i].name, archive_load, second_load,
                    HEX_WORDS_MOST,
                    make_records(records[i].size, records[i].from), 0);
    return 0;
}
