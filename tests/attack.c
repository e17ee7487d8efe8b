/* attack.c: the C call with its buffers against guard pages.
 *
 *   attack [FRAMES...]
 *
 * What each call has to return and write is worked out here, line by line,
 * over the second program's model. The input lies in pages that can't be
 * written during the call, the output in pages filled with a pattern; each
 * stands at the end or at the start of its pages, next to a page that
 * can't be touched. After the call every byte of the output's pages is
 * compared: the log, and the pattern everywhere else. */
#include "s5933.h"
#include "guard.h"
#include "model.h"

#include <stdio.h>
#include <stdlib.h>
#include <string.h>
#include <sys/mman.h>

enum {
    FRAME_DIGITS = 13, MEMORY_WORDS = 4096,
    OUTPUT_MOST = S5933_INPUT_MOST * S5933_LINE_ROOM + 1,
    SIZES = 4
};

/* An input, and what documents 01 and 02 ask for: a log in each set. */
struct text {
    const char *name;
    const uint8_t *bytes;
    size_t length, lines;
    uint8_t *log[SETS];
    size_t log_length[SETS];
};

static const uint32_t no_set[] = { SETS, 256, 0xFFFFFFFF };

/* Pages of several sizes, so that a small buffer costs little. */
static const size_t sizes[SIZES] = { PAGE, 1 << 16, 1 << 22, OUTPUT_MOST };
static struct pages inputs[SIZES], outputs[SIZES];
static unsigned long calls;

/* ---- what documents 01 and 02 ask for ---- */

/* The length of the first line, without its LF. */
static size_t line_length(const uint8_t *bytes, size_t n)
{
    const uint8_t *lf = memchr(bytes, '\n', n);

    return lf == NULL ? n : (size_t)(lf - bytes);
}

static size_t count_lines(const uint8_t *bytes, size_t n)
{
    size_t lines = 0;

    for (size_t i = 0; i < n; i++)
        lines += bytes[i] == '\n';
    return lines + (n > 0 && bytes[n - 1] != '\n');
}

static bool digits(const uint8_t *text, int n, uint32_t *number)
{
    *number = 0;
    for (int i = 0; i < n; i++) {
        uint32_t digit;

        if (text[i] >= '0' && text[i] <= '9')
            digit = text[i] - (uint32_t)'0';
        else if (text[i] >= 'A' && text[i] <= 'F')
            digit = text[i] - (uint32_t)'A' + 10;
        else
            return false;
        *number = *number * 16 + digit;
    }
    return true;
}

static bool is_frame(const uint8_t *line, size_t n, struct step *s)
{
    return n == FRAME_DIGITS
        && digits(line, 2, &s->kind) && digits(line + 2, 2, &s->offset)
        && digits(line + 4, 1, &s->enables) && digits(line + 5, 8, &s->data);
}

/* Writes the log of a text that is not too long; gives its length. */
static size_t write_log(const uint8_t *bytes, size_t n,
                        const char *const label[CODES], uint8_t *log)
{
    static uint32_t memory[MEMORY_WORDS];
    struct window window = { memory, 0, MEMORY_WORDS };
    struct controller chip;
    size_t used = 0;

    memset(memory, 0, sizeof memory);
    model_reset(&chip);
    for (size_t at = 0; at < n; ) {
        size_t line = line_length(bytes + at, n - at);
        char text[S5933_LINE_ROOM + 1];
        struct answer a;
        struct step s;

        if (is_frame(bytes + at, line, &s))
            a = model_step(&chip, &window, &s);
        else
            a = (struct answer){ .code = NOT_A_FRAME_LINE,
                                 .line = model_line(&chip),
                                 .addon_line = model_addon_line(&chip) };
        used += (size_t)sprintf(text, "%02X%08X%08X%X%X%X %s\n",
                                (unsigned)a.code, (unsigned)a.address,
                                (unsigned)a.data, (unsigned)a.enables,
                                (unsigned)a.line, (unsigned)a.addon_line,
                                label[a.code]);
        memcpy(log + used - strlen(text), text, strlen(text));
        at += line + 1;
    }
    return used;
}

static struct text new_text(const char *name, const uint8_t *bytes,
                            size_t length)
{
    struct text t = { .name = name, .bytes = bytes, .length = length };

    t.lines = count_lines(bytes, length);
    for (int set = 0; set < SETS && length <= S5933_INPUT_MOST; set++) {
        t.log[set] = must(malloc(t.lines * S5933_LINE_ROOM + 1));
        t.log_length[set] = write_log(bytes, length, model_label[set],
                                      t.log[set]);
    }
    return t;
}

static void free_text(struct text *t)
{
    for (int set = 0; set < SETS; set++)
        free(t->log[set]);
}

/* ---- a call ---- */

static int64_t wanted(const struct text *t, size_t output_length,
                      uint32_t set)
{
    if (t->length > S5933_INPUT_MOST)
        return -2;
    if (set > 1)
        return -3;
    if (output_length < 41 * t->lines)
        return -1;
    return (int64_t)t->log_length[set];
}

/* Every byte of the output's pages: the log from its place on, the pattern
 * elsewhere. */
static void compare(const struct pages *out, const uint8_t *fill,
                    const uint8_t *output, const uint8_t *wanted_log,
                    int64_t returned)
{
    size_t before = (size_t)(output - out->start);
    size_t log = returned < 0 ? 0 : (size_t)returned;
    size_t after = before + log;

    if (memcmp(out->start, fill, before) != 0)
        fail("a byte before the output changed");
    if (log > 0 && memcmp(output, wanted_log, log) != 0)
        fail("another log");
    if (memcmp(out->start + after, fill + after, out->size - after) != 0)
        fail("a byte past the log changed");
}

static void call(const struct text *t, enum place in_place,
                 enum place out_place, size_t output_length, uint32_t set)
{
    const struct pages *in = fitting(inputs, t->length);
    const struct pages *out = fitting(outputs, output_length);
    const uint8_t *fill = next_pattern();
    uint8_t *input = placed(in, in_place, t->length);
    uint8_t *output = placed(out, out_place, output_length);
    int64_t returned;

    snprintf(current, sizeof current, "%s: set %u, input %zu at its pages' "
             "%s, output %zu at its pages' %s", t->name, (unsigned)set,
             t->length, in_place == AT_START ? "start" : "end",
             output_length, out_place == AT_START ? "start" : "end");
    memcpy(input, t->bytes, t->length);
    protect(in, PROT_READ);
    memcpy(out->start, fill, out->size);
    if (s5933_room(input, t->length) != 41 * t->lines)
        fail("the header counts another room");
    returned = s5933_log(input, t->length, output, output_length, set);
    calls++;
    if (returned != wanted(t, output_length, set)) {
        printf("returned %lld, wanted %lld\n", (long long)returned,
               (long long)wanted(t, output_length, set));
        fail("another return value");
    }
    compare(out, fill, output, t->log[set % SETS], returned);
    protect(in, PROT_READ | PROT_WRITE);
}

/* Each set at every place; numbers that are none at the ends. */
static void call_placed(const struct text *t, size_t output_length)
{
    for (uint32_t set = ENGLISH; set < SETS; set++)
        for (enum place in = AT_START; in < PLACES; in++)
            for (enum place out = AT_START; out < PLACES; out++)
                call(t, in, out, output_length, set);
    for (size_t i = 0; i < sizeof no_set / sizeof no_set[0]; i++)
        call(t, AT_END, AT_END, output_length, no_set[i]);
}

/* None, too short by one, exactly enough, more than enough. */
static void call_edges(const struct text *t)
{
    size_t enough = t->lines * S5933_LINE_ROOM;

    call_placed(t, 0);
    if (enough > 0)
        call_placed(t, enough - 1);
    call_placed(t, enough);
    call_placed(t, enough + 1);
}

static void attack(const char *name, const uint8_t *bytes, size_t length)
{
    struct text t = new_text(name, bytes, length);

    call_edges(&t);
    free_text(&t);
}

/* ---- inputs ---- */

/* Lines of several sorts, the last one without LF. */
static const uint8_t mixed[] =
    "03101000000A5\n0034F00000000\n\nxyz\n0520F00000000\n013CF00004400\n"
    "0124F00004000\n0128F00000004\n0320F12345678\n0400000000000\n"
    "0400000000000\n0138F00100000\n0238F00000000\n023CF00000000\n\r\n"
    "0338400200000\n0620F000000000\n0a34F00000000\n"
    "FF00000000000\n00100000000\n0010100000000";

/* A text on every output length up to a line more than it needs. */
static void every_output(const uint8_t *bytes, size_t length)
{
    struct text t = new_text("every output", bytes, length);

    for (size_t n = 0; n <= (t.lines + 1) * S5933_LINE_ROOM + 1; n++)
        call_placed(&t, n);
    free_text(&t);
}

/* The first lines of the mixed text, with the last LF and without it. */
static void every_output_length(void)
{
    size_t length = 0;

    every_output(mixed, 0);
    for (int lines = 1; lines <= 6; lines++) {
        length += line_length(mixed + length, sizeof mixed - 1 - length) + 1;
        every_output(mixed, length - 1);
        every_output(mixed, length);
    }
}

/* The mixed text cut off after each of its bytes. */
static void every_input_length(void)
{
    for (size_t n = 0; n < sizeof mixed; n++)
        attack("every input", mixed, n);
}

/* Looks at registers and memory, then changes them: a call that kept any
 * of it for the next call would answer that one differently. */
static void nothing_kept(void)
{
    static const uint8_t text[] =
        "0000F00000000\n0210F00000000\n0024F00000000\n0028F00000000\n"
        "002CF00000000\n0030F00000000\n0034F00000000\n0038F00000000\n"
        "003CF00000000\n0238F00000000\n023CF00000000\n0020F00000000\n"
        "0220F00000000\n013CF00004400\n"
        "0130F00000004\n0500000000000\n0220F00000000\n0100F11111111\n"
        "0310F22222222\n0128F00000004\n0320F33333333\n0400000000000\n"
        "0124F00004000\n0128F0000000C\n0130F00000010\n0320F44444444\n"
        "0120F55555555\n0138F0000DF1F\n0338F00001F1F\n0400000000000\n";

    attack("nothing kept", text, sizeof text - 1);
}

static void fill_random(uint8_t *bytes, size_t n, int sort)
{
    static const char few[] = "0123456789ABCDEF\n0123F000000000\n\nf ";
    size_t at = 0;

    while (at < n) {
        uint8_t byte = (uint8_t)random32();

        if (sort == 0)
            bytes[at++] = byte;
        else if (sort == 1)
            bytes[at++] = (uint8_t)few[byte % (sizeof few - 1)];
        else if (n - at >= FRAME_DIGITS + 1)
            at += (size_t)snprintf((char *)bytes + at, n - at + 1,
                                   "%02X%02X%X%08X\n", byte % 8u,
                                   random32() % 17 * 4, random32() % 16 | 3,
                                   (unsigned)random32());
        else
            bytes[at++] = '\n';
    }
}

/* Any bytes, digits with LFs, and frames. */
static void random_texts(void)
{
    static uint8_t bytes[1500];

    for (int i = 0; i < 300; i++) {
        size_t n = random32() % sizeof bytes;

        fill_random(bytes, n, i % 3);
        attack("random", bytes, n);
    }
}

/* As many lines as there can be. */
static void only_lfs(const uint8_t *bytes)
{
    struct text t = new_text("LFs, most", bytes, S5933_INPUT_MOST);
    size_t enough = t.lines * S5933_LINE_ROOM;

    call(&t, AT_END, AT_END, enough - 1, ENGLISH);
    call(&t, AT_END, AT_END, enough - 1, SETS);
    call(&t, AT_END, AT_END, enough, ENGLISH);
    call(&t, AT_END, AT_END, enough, GERMAN);
    call(&t, AT_START, AT_START, enough, GERMAN);
    free_text(&t);
}

/* The longest input and one byte more: of one line, of LFs only, of any
 * bytes, of digits with LFs, and of frames. */
static void limits(void)
{
    uint8_t *bytes = must(malloc(S5933_INPUT_MOST + 2));

    memset(bytes, 'A', S5933_INPUT_MOST + 1);
    attack("one line, most", bytes, S5933_INPUT_MOST);
    attack("one line, too long", bytes, S5933_INPUT_MOST + 1);
    memset(bytes, '\n', S5933_INPUT_MOST + 1);
    attack("LFs, too long", bytes, S5933_INPUT_MOST + 1);
    only_lfs(bytes);
    for (int sort = 0; sort < 3; sort++) {
        fill_random(bytes, S5933_INPUT_MOST + 1, sort);
        attack("random, most", bytes, S5933_INPUT_MOST);
        attack("random, too long", bytes, S5933_INPUT_MOST + 1);
    }
    free(bytes);
}

/* A frame file, whole and without its last byte. */
static void frame_file(const char *name)
{
    uint8_t *bytes = must(malloc(S5933_INPUT_MOST + 1));
    FILE *file = must(fopen(name, "rb"));
    size_t n = fread(bytes, 1, S5933_INPUT_MOST + 1, file);

    if (ferror(file) || n == 0 || n > S5933_INPUT_MOST) {
        printf("attack: %s can't be read, is empty or too long\n", name);
        exit(2);
    }
    fclose(file);
    attack(name, bytes, n);
    attack(name, bytes, n - 1);
    free(bytes);
}

static void set_up(void)
{
    guard_set_up("attack", OUTPUT_MOST);
    for (int i = 0; i < SIZES; i++) {
        inputs[i] = new_pages(sizes[i]);
        outputs[i] = new_pages(sizes[i]);
    }
}

int main(int argc, char **argv)
{
    set_up();
    every_output_length();
    every_input_length();
    nothing_kept();
    random_texts();
    limits();
    for (int i = 1; i < argc; i++)
        frame_file(argv[i]);
    printf("attack: %lu calls\n", calls);
    return 0;
}
