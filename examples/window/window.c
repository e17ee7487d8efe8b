/*
 * window.c: Intel HEX loaded into a window, and the window as Intel HEX.
 *
 *   window START COUNT < HEXFILE
 *
 * The window has COUNT words (decimal) from the address START (hexadecimal)
 * on, all zero. Standard input is loaded into it, and the whole window is
 * printed. If the text is refused, standard error has the code and what it
 * means, and nothing is printed.
 */
#include "s5933.h"

#include <ctype.h>
#include <errno.h>
#include <stdio.h>
#include <stdlib.h>
#include <string.h>

/* The longest text that is read, in bytes. The call itself has no limit. */
enum { TEXT_MOST = 1 << 20 };

/* What the three calls can refuse. They return the code with a minus. */
static const struct {
    int code;
    const char *meaning;
} refusals[] = {
    { S5933_WINDOW_OUT_OF_FORM, "START or COUNT is not that of a window" },
    { S5933_NOT_A_HEX_RECORD, "a line is no record of type 00, 01 or 04" },
    { S5933_WRONG_SUM, "a record has a wrong sum" },
    { S5933_OUTSIDE_THE_WINDOW, "a record has a byte outside the window" },
    { S5933_NO_END_OR_NOT_LAST, "no end record, or something behind it" },
    { S5933_OUTPUT_TOO_SHORT, "too little room for the window's text" }
};

static void complain(const char *what, const char *why)
{
    fprintf(stderr, "window: %s: %s\n", what, why);
}

/* Says why a call returned a negative number. */
static void complain_of(int64_t answer)
{
    char what[32];

    for (size_t i = 0; i < sizeof refusals / sizeof refusals[0]; i++)
        if (answer == -refusals[i].code) {
            snprintf(what, sizeof what, "refused by code %d",
                     refusals[i].code);
            complain(what, refusals[i].meaning);
            return;
        }
    complain("refused", "the header has no such code");
}

/* Reads standard input; 0, and said why, if it can't or it is too long. */
static int read_text(uint8_t *text, size_t *length)
{
    *length = fread(text, 1, TEXT_MOST, stdin);
    if (ferror(stdin)) {
        complain("standard input", strerror(errno));
        return 0;
    }
    if (*length == TEXT_MOST && getchar() != EOF) {
        complain("standard input", "longer than 1048576 bytes");
        return 0;
    }
    return 1;
}

/* Loads the text, then prints the window; 0 if anything went wrong. */
static int load_and_print(uint32_t start, size_t count, const uint8_t *text,
                          size_t length)
{
    static uint32_t words[S5933_WINDOW_MOST];
    int64_t room = s5933_hex_length(count, start);      /* or a refusal */
    int64_t answer = room;
    uint8_t *out;

    if (answer >= 0)    /* so there are no more words than the array has */
        answer = s5933_hex_load(words, count, start, text, length);
    if (answer < 0) {
        complain_of(answer);
        return 0;
    }
    out = malloc((size_t)room);
    if (out == NULL) {
        complain("the window's text", "no memory");
        return 0;
    }
    answer = s5933_hex_export(words, count, start, out, (size_t)room);
    if (answer < 0)
        complain_of(answer);
    else
        fwrite(out, 1, (size_t)answer, stdout);
    free(out);
    return answer >= 0;
}

/* The number that a word is, at most that; 0 if it is none. */
static int is_number(const char *word, int base, unsigned long most,
                     unsigned long *number)
{
    char *end;

    errno = 0;
    *number = strtoul(word, &end, base);
    return isxdigit((unsigned char)word[0]) && *end == '\0' && errno == 0
           && *number <= most;
}

int main(int argc, char **argv)
{
    static uint8_t text[TEXT_MOST];
    unsigned long start, count;
    size_t length;

    if (argc != 3 || !is_number(argv[1], 16, UINT32_MAX, &start)
        || !is_number(argv[2], 10, SIZE_MAX, &count)) {
        fputs("usage: window START COUNT < HEXFILE\n", stderr);
        return 2;
    }
    if (!read_text(text, &length)
        || !load_and_print((uint32_t)start, count, text, length))
        return 1;
    if (fflush(stdout) != 0 || ferror(stdout)) {
        complain("standard output", strerror(errno));
        return 1;
    }
    return 0;
}
