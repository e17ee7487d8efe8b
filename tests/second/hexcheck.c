/* hexcheck.c: runs the cases of hexcases.txt over the second program.
 * Part of the second program, written from documents 01 and 02 alone.
 *
 *   hexcheck hexcases.txt    exit status 0 if every case holds
 *
 * Buffers are as long as the case says, so that a sanitizer sees more. */
#include "hexcases.h"
#include "hexfile.h"

#include <stdio.h>
#include <stdlib.h>
#include <string.h>

enum { UNTOUCHED = 0xA5 };

static void *new_bytes(size_t n)
{
    void *bytes = malloc(n == 0 ? 1 : n);

    if (bytes == NULL) {
        perror("hexcheck");
        exit(2);
    }
    return memset(bytes, UNTOUCHED, n);
}

static void *copy_of(const void *bytes, size_t n)
{
    void *copy = new_bytes(n);

    if (n > 0)
        memcpy(copy, bytes, n);
    return copy;
}

static int64_t export(const struct hexcase *c, const uint32_t *words,
                      bool *same)
{
    uint8_t *out = new_bytes(c->room);
    int64_t answer = hexfile_export(words, c->count, c->start, out, c->room);

    *same = c->length <= c->room && memcmp(out, c->text, c->length) == 0;
    for (size_t i = c->length; i < c->room; i++)
        *same = *same && out[i] == UNTOUCHED;
    free(out);
    return answer;
}

static int64_t load(const struct hexcase *c, uint32_t *words)
{
    uint8_t *text = copy_of(c->text, c->length);
    int64_t answer = hexfile_load(words, c->count, c->start, text, c->length);

    free(text);
    return answer;
}

static bool holds(const struct hexcase *c)
{
    bool windowed = c->call != HEX_LENGTH, same = true;
    size_t size = windowed ? c->count * sizeof *c->words : 0;
    uint32_t *words = copy_of(c->words, size);
    int64_t answer;

    if (c->call == HEX_LENGTH)
        answer = hexfile_length(c->count, c->start);
    else if (c->call == HEX_EXPORT)
        answer = export(c, words, &same);
    else
        answer = load(c, words);
    if (size > 0)
        same = same && memcmp(words, c->after, size) == 0;
    free(words);
    if (answer != c->answer)
        printf("%s: answers %lld, not %lld\n", c->name, (long long)answer,
               (long long)c->answer);
    if (!same)
        printf("%s: other bytes afterwards\n", c->name);
    return same && answer == c->answer;
}

int main(int argc, char **argv)
{
    if (argc != 2) {
        fputs("usage: hexcheck hexcases.txt\n", stderr);
        return 2;
    }
    return hexcases_hold(argv[1], holds) ? 0 : 1;
}
