/* hexdrive.c: the C calls on windows, on files.
 *
 *   hexdrive export START < WORDS > TEXT
 *   hexdrive load START COUNT FILL < TEXT > WORDS
 *
 * START is hexadecimal; WORDS are little-endian bytes, four a word; FILL
 * is the hexadecimal word that the window holds before. The exit status is
 * the call's code; a refused load writes the words too. It is 1 where a
 * file or an argument is none. */
#include "hexcall.h"

#include <stdio.h>
#include <stdlib.h>
#include <string.h>

enum { INPUT_MOST = 1 << 24, OUTPUT_MOST = 1 << 18, WORDS_MOST = 1 << 15 };

static uint8_t input[INPUT_MOST], output[OUTPUT_MOST];
static uint32_t words[WORDS_MOST];

static int put(size_t n, int code)
{
    return fwrite(output, 1, n, stdout) == n && fflush(stdout) == 0 ? code : 1;
}

static int export(uint32_t start, size_t bytes)
{
    int64_t answer;

    for (size_t i = 0; i < bytes; i++)
        words[i / 4] |= (uint32_t)input[i] << i % 4 * 8;
    answer = s5933_hex_export(words, bytes / 4, start, output, OUTPUT_MOST);
    return put(answer < 0 ? 0 : (size_t)answer, answer < 0 ? (int)-answer : 0);
}

static int load(uint32_t start, size_t count, uint32_t fill, size_t length)
{
    int64_t answer;

    for (size_t i = 0; i < count; i++)
        words[i] = fill;
    answer = s5933_hex_load(words, count, start, input, length);
    for (size_t i = 0; i < 4 * count; i++)
        output[i] = (uint8_t)(words[i / 4] >> i % 4 * 8);
    return put(4 * count, (int)-answer);
}

int main(int argc, char **argv)
{
    size_t n = fread(input, 1, INPUT_MOST, stdin);
    uint32_t start = argc > 2 ? (uint32_t)strtoul(argv[2], NULL, 16) : 0;
    size_t count = argc > 3 ? strtoul(argv[3], NULL, 10) : 0;

    if (n < INPUT_MOST && argc == 3 && strcmp(argv[1], "export") == 0
        && n % 4 == 0 && n <= 4 * WORDS_MOST)
        return export(start, n);
    if (n < INPUT_MOST && argc == 5 && strcmp(argv[1], "load") == 0
        && count <= WORDS_MOST)
        return load(start, count, (uint32_t)strtoul(argv[4], NULL, 16), n);
    fputs("usage: hexdrive export START < WORDS > TEXT\n"
          "       hexdrive load START COUNT FILL < TEXT > WORDS\n", stderr);
    return 1;
}
