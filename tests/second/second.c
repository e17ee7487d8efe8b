/* second.c: the log program of documents 01 and 02.
 * Part of the second program, written from documents 01 and 02 alone.
 *
 *   second < frames > log     writes the log
 *   second --lines < frames   prints the number of log lines and log bytes
 *
 * The first line is the set of labels. Exit status 0 if the whole input
 * was answered, 1 if a read or write failed, 2 if it was called wrongly,
 * 3 if the set is unknown. */
#define _POSIX_C_SOURCE 200809L
#include "model.h"

#include <errno.h>
#include <inttypes.h>
#include <stdio.h>
#include <string.h>
#include <unistd.h>

enum {
    IN_SIZE = 65536, OUT_SIZE = 65536,
    FRAME_DIGITS = 13, ANSWER_DIGITS = 21,
    TAIL_SIZE = 20,     /* the longest of a space, a label and LF */
    LOG_LINE_MAX = ANSWER_DIGITS + TAIL_SIZE,
    MEMORY_WORDS = 4096,
    NO_DIGIT = 0x80
};

/* What the first bytes say besides a set: none, or not yet. */
enum { UNKNOWN_SET = SETS, OPEN_SET };
enum { SET_DIGITS = 2, SET_LINE = SET_DIGITS + 1 };
enum { ANSWERED, FAILED, CALLED_WRONGLY, REFUSED_SET };

struct run {
    struct controller chip;
    struct window window;
    int set;
    bool ended;                 /* the input ended with the set line */
    bool quiet;                 /* count the log, don't write it */
    bool overlong;              /* the open line is past 13 bytes */
    size_t held;                /* bytes of the open line in in[] */
    size_t used;                /* bytes in out[] */
    uint64_t lines, log_bytes;
    uint32_t memory[MEMORY_WORDS];
    unsigned char in[IN_SIZE];
    char out[OUT_SIZE];
};

static struct run the_run;
static unsigned char digit_value[256];  /* 0 to 15, or NO_DIGIT */
static char byte_digits[256][2];
static char tail[CODES][TAIL_SIZE];
static size_t tail_length[CODES];

static void make_tables(void)
{
    static const char digits[16] = "0123456789ABCDEF";

    memset(digit_value, NO_DIGIT, sizeof digit_value);
    for (unsigned i = 0; i < 16; i++)
        digit_value[(unsigned char)digits[i]] = (unsigned char)i;
    for (unsigned i = 0; i < 256; i++) {
        byte_digits[i][0] = digits[i / 16];
        byte_digits[i][1] = digits[i % 16];
    }
}

static void use_labels(const char *const label[CODES])
{
    for (unsigned i = 0; i < CODES; i++) {
        size_t n = strlen(label[i]);

        tail[i][0] = ' ';
        memcpy(tail[i] + 1, label[i], n);
        tail[i][n + 1] = '\n';
        tail_length[i] = n + 2;
    }
}

/* Writes out[] and empties it; false if the output fails. */
static bool flush_log(struct run *r)
{
    size_t done = 0;

    r->log_bytes += r->used;
    while (!r->quiet && done < r->used) {
        ssize_t n = write(STDOUT_FILENO, r->out + done, r->used - done);

        if (n >= 0)
            done += (size_t)n;
        else if (errno != EINTR)
            return false;
    }
    r->used = 0;
    return true;
}

static void put_word(char *to, uint32_t word)
{
    memcpy(to, byte_digits[word >> 24], 2);
    memcpy(to + 2, byte_digits[word >> 16 & 0xFF], 2);
    memcpy(to + 4, byte_digits[word >> 8 & 0xFF], 2);
    memcpy(to + 6, byte_digits[word & 0xFF], 2);
}

/* Adds one log line; false if the output fails. */
static bool log_answer(struct run *r, const struct answer *a)
{
    char *to;

    if (r->used > OUT_SIZE - LOG_LINE_MAX && !flush_log(r))
        return false;
    to = r->out + r->used;
    memcpy(to, byte_digits[a->code], 2);
    put_word(to + 2, a->address);
    put_word(to + 10, a->data);
    memcpy(to + 18, byte_digits[a->enables << 4 | a->line], 2);
    to[20] = byte_digits[a->addon_line][1];
    memcpy(to + ANSWER_DIGITS, tail[a->code], TAIL_SIZE);
    r->used += ANSWER_DIGITS + tail_length[a->code];
    r->lines++;
    return true;
}

static uint32_t value_of(const unsigned char *text, int digits)
{
    uint32_t v = 0;

    for (int i = 0; i < digits; i++)
        v = v << 4 | digit_value[text[i]];
    return v;
}

/* Reads a frame from 13 bytes; false if one is no digit. */
static bool read_frame(const unsigned char *text, struct step *s)
{
    unsigned all = 0;

    for (int i = 0; i < FRAME_DIGITS; i++)
        all |= digit_value[text[i]];
    if (all & NO_DIGIT)
        return false;
    s->kind = value_of(text, 2);
    s->offset = value_of(text + 2, 2);
    s->enables = value_of(text + 4, 1);
    s->data = value_of(text + 5, 8);
    return true;
}

static bool log_step(struct run *r, const struct step *s)
{
    struct answer a = model_step(&r->chip, &r->window, s);

    return log_answer(r, &a);
}

static bool log_broken(struct run *r)
{
    struct answer a = { .code = NOT_A_FRAME_LINE,
                        .line = model_line(&r->chip),
                        .addon_line = model_addon_line(&r->chip) };

    return log_answer(r, &a);
}

/* Keeps the open line if it can still be a frame, else only its mark. */
static void keep_rest(struct run *r, const unsigned char *rest, size_t n)
{
    if (n > FRAME_DIGITS)
        r->overlong = true;
    r->held = r->overlong ? 0 : n;
    memmove(r->in, rest, r->held);
}

/* Works through the lines ended in the first n bytes of in[]. */
static bool take_lines(struct run *r, size_t n)
{
    const unsigned char *at = r->in;
    const unsigned char *end = r->in + n;
    struct step s;

    while (at < end) {
        const unsigned char *lf;

        if (!r->overlong && end - at > FRAME_DIGITS
            && at[FRAME_DIGITS] == '\n' && read_frame(at, &s)) {
            if (!log_step(r, &s))
                return false;
            at += FRAME_DIGITS + 1;
            continue;
        }
        lf = memchr(at, '\n', (size_t)(end - at));
        if (lf == NULL)
            break;
        if (!log_broken(r))
            return false;
        r->overlong = false;
        at = lf + 1;
    }
    keep_rest(r, at, (size_t)(end - at));
    return true;
}

/* The last line, if it has no LF and isn't empty. */
static bool take_last(struct run *r)
{
    struct step s;

    if (!r->overlong && r->held == 0)
        return true;
    if (r->held == FRAME_DIGITS && read_frame(r->in, &s))
        return log_step(r, &s);
    return log_broken(r);
}

/* Bytes behind those held: how many, 0 at the end, -1 if it fails. */
static ssize_t read_some(struct run *r)
{
    ssize_t n;

    do
        n = read(STDIN_FILENO, r->in + r->held, IN_SIZE - r->held);
    while (n < 0 && errno == EINTR);
    return n;
}

/* The set whose line the n bytes begin with; OPEN_SET if they can still
 * become one. Only the end of the input stands in for the LF. */
static int set_of(const unsigned char *text, size_t n, bool ended)
{
    static const char line[SETS][SET_LINE] = {
        [ENGLISH] = { '0', '0', '\n' }, [GERMAN] = { '0', '1', '\n' }
    };

    for (int set = 0; set < SETS; set++) {
        if (n >= SET_LINE && memcmp(text, line[set], SET_LINE) == 0)
            return set;
        if (n < SET_LINE && memcmp(text, line[set], n) == 0) {
            if (!ended)
                return OPEN_SET;
            if (n == SET_DIGITS)
                return set;
        }
    }
    return UNKNOWN_SET;
}

/* Reads until the set is known or none; false if a read fails. */
static bool read_set(struct run *r)
{
    do {
        ssize_t n = read_some(r);

        if (n < 0)
            return false;
        r->held += (size_t)n;
        r->ended = n == 0;
        r->set = set_of(r->in, r->held, r->ended);
    } while (r->set == OPEN_SET);
    return true;
}

/* The one line for an unknown set: its label is the English one. */
static bool refuse_set(struct run *r)
{
    struct answer a = { .code = UNKNOWN_LABEL_SET };

    use_labels(model_label[ENGLISH]);
    return log_answer(r, &a) && flush_log(r);
}

/* The lines that came in one read with the set line. */
static bool take_first(struct run *r)
{
    size_t rest = r->held - (r->ended ? SET_DIGITS : SET_LINE);

    r->held = 0;
    memmove(r->in, r->in + SET_LINE, rest);
    return take_lines(r, rest);
}

/* Flushes before each read, so that a reader on a pipe has every answer. */
static bool run_lines(struct run *r)
{
    ssize_t n = 0;

    if (!take_first(r))
        return false;
    while (!r->ended) {
        if (!flush_log(r))
            return false;
        n = read_some(r);
        if (n < 0 || !take_lines(r, r->held + (size_t)n))
            return false;
        r->ended = n == 0;
    }
    return take_last(r) && flush_log(r);
}

/* Gives the exit status. */
static int run_input(struct run *r)
{
    if (!read_set(r))
        return FAILED;
    if (r->set == UNKNOWN_SET)
        return refuse_set(r) ? REFUSED_SET : FAILED;
    use_labels(model_label[r->set]);
    return run_lines(r) ? ANSWERED : FAILED;
}

int main(int argc, char **argv)
{
    struct run *r = &the_run;
    int status;

    r->quiet = argc == 2 && strcmp(argv[1], "--lines") == 0;
    if (argc > 1 && !r->quiet) {
        fputs("usage: second [--lines] < frames\n", stderr);
        return CALLED_WRONGLY;
    }
    make_tables();
    model_reset(&r->chip);
    r->window = (struct window){ r->memory, 0, MEMORY_WORDS };
    status = run_input(r);
    if (status == FAILED)
        perror("second");
    else if (r->quiet)
        printf("%" PRIu64 " %" PRIu64 "\n", r->lines, r->log_bytes);
    return fflush(stdout) == 0 ? status : FAILED;
}
