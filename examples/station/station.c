/*
 * station.c: the fault history of a frame file.
 *
 *   station FRAMES [english|german]
 *
 * Runs the file's lines through the S5933 model and prints, for each code
 * other than 0 that was answered, how often it was, and the line and the
 * address of the first and of the last time. The history is kept by the
 * code; the label, in the language asked for, is only shown. The file has
 * no set line: every line of it is a frame, or answered by code 14.
 */
#include "s5933.h"

#include <errno.h>
#include <inttypes.h>
#include <stdio.h>
#include <stdlib.h>
#include <string.h>

/* Every number that the digits of a code can say. */
enum { CODES = 1 << 4 * S5933_CODE_DIGITS };

struct moment {
    size_t line;
    uint32_t address;
};

struct fault {
    size_t times;
    struct moment first, last;
    const uint8_t *label;       /* for showing; not ended by a NUL */
    int label_length;
};

struct history {
    size_t lines;
    struct fault of[CODES];     /* by the code */
};

/* The languages of the labels, by the words that the user says. */
static const struct language {
    const char *word;
    uint32_t set;
} languages[] = {
    { "english", S5933_ENGLISH },       /* the first if none is given */
    { "german", S5933_GERMAN }
};

static void complain(const char *what, const char *why)
{
    fprintf(stderr, "station: %s: %s\n", what, why);
}

/*
 * Reads the file, but no more than one byte past the limit: that byte is
 * enough for s5933_log to refuse. NULL, and said why, if it can't.
 */
static uint8_t *read_file(const char *name, size_t *length)
{
    const size_t most = (size_t)S5933_INPUT_MOST + 1;
    uint8_t *bytes = malloc(most);
    FILE *file = fopen(name, "rb");
    int why = errno;

    if (bytes != NULL && file != NULL) {
        *length = fread(bytes, 1, most, file);
        why = errno;
        if (!ferror(file)) {
            fclose(file);
            return bytes;
        }
    }
    complain(name, bytes == NULL ? "no memory" : strerror(why));
    if (file != NULL)
        fclose(file);
    free(bytes);
    return NULL;
}

/* Notes one log line of n bytes, without its LF; 0 if it isn't one. */
static int note_line(struct history *h, const uint8_t *line, size_t n)
{
    struct moment now = { ++h->lines, 0 };
    struct fault *fault;
    int64_t code, address;

    if (n < S5933_LABEL_AT || n >= S5933_LINE_ROOM)
        return 0;
    code = s5933_number(line, S5933_CODE_AT, S5933_CODE_DIGITS);
    address = s5933_number(line, S5933_ADDRESS_AT, S5933_ADDRESS_DIGITS);
    if (code < 0 || address < 0 || line[S5933_SPACE_AT] != ' ')
        return 0;
    now.address = (uint32_t)address;
    fault = &h->of[code];
    if (fault->times == 0) {
        fault->first = now;
        fault->label = line + S5933_LABEL_AT;
        fault->label_length = (int)(n - S5933_LABEL_AT);
    }
    fault->last = now;
    fault->times++;
    return 1;
}

/* Notes the whole log; 0 if it isn't one. */
static int note_log(struct history *h, const uint8_t *log, size_t length)
{
    for (size_t at = 0; at < length; ) {
        const uint8_t *end = memchr(log + at, '\n', length - at);

        if (end == NULL || !note_line(h, log + at, (size_t)(end - log) - at))
            return 0;
        at = (size_t)(end - log) + 1;
    }
    return 1;
}

static void show(const struct history *h)
{
    printf("lines %zu, done %zu, faults %zu\n", h->lines,
           h->of[S5933_DONE].times, h->lines - h->of[S5933_DONE].times);
    puts("code  times  first line   address  last line   address  label");
    for (size_t code = S5933_DONE + 1; code < CODES; code++) {
        const struct fault *f = &h->of[code];

        if (f->times > 0)
            printf("%4zu %6zu %11zu  %08" PRIX32 " %10zu  %08" PRIX32
                   "  %.*s\n", code, f->times, f->first.line,
                   f->first.address, f->last.line, f->last.address,
                   f->label_length, (const char *)f->label);
    }
}

/* The language of the word; NULL if there is none. */
static const struct language *language_named(const char *word)
{
    for (size_t i = 0; i < sizeof languages / sizeof languages[0]; i++)
        if (strcmp(word, languages[i].word) == 0)
            return &languages[i];
    return NULL;
}

/* Runs the frames and shows their history; 0 if anything went wrong. */
static int run(const char *name, const uint8_t *frames, size_t length,
               uint32_t set)
{
    static struct history history;
    size_t room = s5933_room(frames, length);
    uint8_t *log = malloc(room + 1);    /* never none: no null pointer */
    int64_t written;
    int good = 0;

    if (log == NULL) {
        complain(name, "no memory for the log");
        return 0;
    }
    written = s5933_log(frames, length, log, room, set);
    if (written == S5933_INPUT_TOO_LONG)
        complain(name, "longer than 1048576 bytes");
    else if (written == S5933_UNKNOWN_SET)
        complain(name, "labels of an unknown set were asked for");
    else if (written == S5933_NO_ROOM)
        complain(name, "too little room for the log");
    else if (written < 0 || (uint64_t)written > room
             || !note_log(&history, log, (size_t)written))
        complain(name, "the log is not as it should be");
    else
        good = 1;
    if (good)
        show(&history);
    free(log);
    return good;
}

int main(int argc, char **argv)
{
    const struct language *language = languages;
    uint8_t *frames;
    size_t length = 0;
    int good;

    if (argc == 3)
        language = language_named(argv[2]);
    if (argc < 2 || argc > 3 || language == NULL) {
        fputs("usage: station FRAMES [english|german]\n", stderr);
        return 2;
    }
    frames = read_file(argv[1], &length);
    if (frames == NULL)
        return 1;
    good = run(argv[1], frames, length, language->set);
    free(frames);
    if (fflush(stdout) != 0 || ferror(stdout)) {
        complain("standard output", strerror(errno));
        return 1;
    }
    return good ? 0 : 1;
}
