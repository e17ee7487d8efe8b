/* hexcases.c: reads hexcases.txt.
 * Part of the second program, written from documents 01 and 02 alone. */
#include "hexcases.h"

#include <stdio.h>
#include <stdlib.h>
#include <string.h>

enum { NAME, CALL, START, WORDS, IN, ANSWER, OUT, FIELDS };
enum { LINE_SIZE = 4096 };

static void *must(void *got)
{
    if (got == NULL) {
        perror("hexcases");
        exit(2);
    }
    return got;
}

/* Splits the line at " | "; false if there are not seven fields. */
static bool split(char *line, char *field[FIELDS])
{
    static const char bar[] = " | ";

    for (int i = 0; i < FIELDS; i++) {
        char *end = strstr(line, bar);

        field[i] = line;
        if ((end == NULL) != (i == FIELDS - 1))
            return false;
        if (end != NULL) {
            *end = '\0';
            line = end + sizeof bar - 1;
        }
    }
    return true;
}

static bool take_number(const char *text, int base, uint64_t *number)
{
    char *end;

    *number = strtoull(text, &end, base);
    return end != text && *end == '\0' && *text != '-';
}

/* COUNT*BASE: word i is BASE + i. Else words parted by spaces, "-" none. */
static bool take_words(char *text, uint32_t **words, size_t *count)
{
    char *star = strchr(text, '*');
    uint64_t n = strlen(text), base = 0, word;

    if (star != NULL) {
        *star = '\0';
        if (!take_number(text, 10, &n) || !take_number(star + 1, 16, &base)
            || n > 1 << 20)
            return false;
    }
    *words = must(malloc((n + 1) * sizeof **words));
    *count = star == NULL ? 0 : n;
    for (size_t i = 0; i < *count; i++)
        (*words)[i] = (uint32_t)(base + i);
    if (star != NULL || strcmp(text, "-") == 0)
        return true;
    for (char *at = strtok(text, " "); at != NULL; at = strtok(NULL, " ")) {
        if (strlen(at) != 8 || !take_number(at, 16, &word))
            return false;
        (*words)[(*count)++] = (uint32_t)word;
    }
    return *count > 0;
}

/* The byte behind a backslash, and how many characters it takes. */
static size_t take_escape(const char *at, uint8_t *byte)
{
    static const char names[] = "nrt0";
    static const uint8_t bytes[] = { '\n', '\r', '\t', '\0' };
    const char *name = *at == '\0' ? NULL : strchr(names, *at);
    unsigned value;

    if (name != NULL) {
        *byte = bytes[name - names];
        return 1;
    }
    if (*at != 'x' || sscanf(at + 1, "%2x", &value) != 1)
        return 0;
    *byte = (uint8_t)value;
    return 3;
}

static bool take_text(const char *text, uint8_t **bytes, size_t *length)
{
    *bytes = must(malloc(strlen(text) + 1));
    *length = 0;
    if (strcmp(text, "-") == 0)
        return true;
    while (*text != '\0') {
        uint8_t byte = (uint8_t)*text++;

        if (byte == '\\') {
            size_t used = take_escape(text, &byte);

            if (used == 0)
                return false;
            text += used;
        }
        (*bytes)[(*length)++] = byte;
    }
    return true;
}

/* "-" where the words stay as they are. */
static bool take_after(char *text, struct hexcase *c)
{
    size_t count = c->count;

    if (strcmp(text, "-") != 0)
        return take_words(text, &c->after, &count) && count == c->count;
    c->after = must(malloc((count + 1) * sizeof *c->after));
    memcpy(c->after, c->words, count * sizeof *c->after);
    return true;
}

/* A length has a count alone, in decimal or hexadecimal. */
static bool take_call(char *field[FIELDS], struct hexcase *c)
{
    uint64_t number = 0;

    if (strcmp(field[CALL], "length") == 0) {
        c->call = HEX_LENGTH;
        if (!take_number(field[WORDS], 0, &number))
            return false;
        c->count = (size_t)number;
        return strcmp(field[IN], "-") == 0 && strcmp(field[OUT], "-") == 0;
    }
    if (!take_words(field[WORDS], &c->words, &c->count))
        return false;
    if (strcmp(field[CALL], "export") == 0) {
        c->call = HEX_EXPORT;
        if (!take_number(field[IN], 10, &number))
            return false;
        c->room = (size_t)number;
        return take_text(field[OUT], &c->text, &c->length)
            && take_after("-", c);
    }
    c->call = HEX_LOAD;
    return strcmp(field[CALL], "load") == 0
        && take_text(field[IN], &c->text, &c->length)
        && take_after(field[OUT], c);
}

static bool take_case(char *line, struct hexcase *c)
{
    char *field[FIELDS], *end;
    uint64_t start;

    memset(c, 0, sizeof *c);
    if (!split(line, field) || strlen(field[START]) != 8
        || !take_number(field[START], 16, &start))
        return false;
    c->name = field[NAME];
    c->start = (uint32_t)start;
    c->answer = strtoll(field[ANSWER], &end, 10);
    return end != field[ANSWER] && *end == '\0' && take_call(field, c);
}

static bool read_table(FILE *table, bool (*holds)(const struct hexcase *))
{
    unsigned number = 0, cases = 0, failed = 0;
    char line[LINE_SIZE];
    struct hexcase c;

    while (fgets(line, sizeof line, table) != NULL) {
        bool good;

        number++;
        line[strcspn(line, "\n")] = '\0';
        if (line[0] == '#' || line[0] == '\0')
            continue;
        cases++;
        good = take_case(line, &c);
        if (!good)
            printf("line %u: not a case\n", number);
        else
            good = holds(&c);
        failed += !good;
        free(c.words);
        free(c.text);
        free(c.after);
    }
    printf("hexcases: %u cases, %u failed\n", cases, failed);
    return cases > 0 && failed == 0 && !ferror(table);
}

bool hexcases_hold(const char *table, bool (*holds)(const struct hexcase *))
{
    FILE *file = must(fopen(table, "r"));
    bool good = read_table(file, holds);

    fclose(file);
    return good;
}
