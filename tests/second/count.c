/* count.c: the program of document 02 that counts done cycles.
 * Part of the second program, written from documents 01 and 02 alone.
 *
 *   count < frames    prints the done write and the done read cycles
 *
 * The first line is the set of labels. Exit status 0 if the whole input
 * was counted, 1 if a read or write failed, 2 if it was called wrongly,
 * 3 if the set is unknown. */
#define _POSIX_C_SOURCE 200809L
#include "model.h"

#include <inttypes.h>
#include <stdio.h>
#include <string.h>

enum { FRAME_DIGITS = 13, MEMORY_WORDS = 4096 };
enum { COUNTED, FAILED, CALLED_WRONGLY, REFUSED_SET };

/* A line without its LF. Of a longer one than a frame the beginning is
 * kept, and a length of one more than a frame's. */
struct line {
    char text[FRAME_DIGITS];
    size_t length;
};

/* False at the end of the input; a last line without LF is one. */
static bool read_line(struct line *l)
{
    int c;

    l->length = 0;
    while ((c = getchar_unlocked()) != EOF && c != '\n')
        if (l->length < FRAME_DIGITS)
            l->text[l->length++] = (char)c;
        else
            l->length = FRAME_DIGITS + 1;
    return c == '\n' || l->length > 0;
}

/* Whether the input begins with a set line, ended by LF or by the end of
 * the input. No byte is read behind the one that tells. */
static bool read_set(void)
{
    int c;

    if (getchar_unlocked() != '0')
        return false;
    c = getchar_unlocked();
    if (c < '0' || c >= '0' + SETS)
        return false;
    c = getchar_unlocked();
    return c == '\n' || c == EOF;
}

/* Reads a number; false if one of the digits is none. */
static bool read_number(const char *text, int digits, uint32_t *number)
{
    *number = 0;
    for (int i = 0; i < digits; i++) {
        int value = text[i] >= '0' && text[i] <= '9' ? text[i] - '0'
                  : text[i] >= 'A' && text[i] <= 'F' ? text[i] - 'A' + 10
                  : -1;

        if (value < 0)
            return false;
        *number = *number << 4 | (uint32_t)value;
    }
    return true;
}

static bool read_step(const struct line *l, struct step *s)
{
    return l->length == FRAME_DIGITS && read_number(l->text, 2, &s->kind)
        && read_number(l->text + 2, 2, &s->offset)
        && read_number(l->text + 4, 1, &s->enables)
        && read_number(l->text + 5, 8, &s->data);
}

/* Makes the steps of the lines that follow, and prints the two counts. A
 * line that is no frame is no step. */
static int count_cycles(void)
{
    static uint32_t memory[MEMORY_WORDS];
    struct window window = { memory, 0, MEMORY_WORDS };
    struct controller chip;
    struct line l;
    struct step s;
    uint32_t writes = 0, reads = 0;

    model_reset(&chip);
    while (read_line(&l)) {
        if (!read_step(&l, &s))
            continue;
        if (model_step(&chip, &window, &s).code == DONE) {
            writes += s.kind == WRITE_CYCLE;
            reads += s.kind == READ_CYCLE;
        }
    }
    if (ferror(stdin))
        return FAILED;
    printf("%08" PRIX32 " %08" PRIX32 "\n", writes, reads);
    return COUNTED;
}

/* The line of an unknown set, as the log program has it. */
static int refuse_set(void)
{
    printf("%02X%019d %s\n", (unsigned)UNKNOWN_LABEL_SET, 0,
           model_label[ENGLISH][UNKNOWN_LABEL_SET]);
    return REFUSED_SET;
}

int main(int argc, char **argv)
{
    bool known;
    int status;

    (void)argv;
    if (argc > 1) {
        fputs("usage: count < frames\n", stderr);
        return CALLED_WRONGLY;
    }
    known = read_set();
    if (ferror(stdin))
        status = FAILED;
    else
        status = known ? count_cycles() : refuse_set();
    if (fflush(stdout) != 0 || ferror(stdout))
        status = FAILED;
    if (status == FAILED)
        perror("count");
    return status;
}
