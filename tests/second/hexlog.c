/* hexlog.c: frames over a memory that is loaded before or exported after.
 * Part of the second program, written from documents 01 and 02 alone.
 *
 *   hexlog export < FRAMES > TEXT
 *   hexlog load HEXFILE < FRAMES > LOG
 *   hexlog both HEXFILE < FRAMES > TEXT
 *
 * FRAMES begin with a set line, ended by LF. The exit status is the code
 * of a refused load, and 1 where a file or an argument is none. */
#include "hexfile.h"
#include "model.h"

#include <stdio.h>
#include <string.h>

enum { INPUT_MOST = 1 << 21, WORDS = 4096, FRAME = 13, SET_LINE = 3 };

static uint8_t frames[INPUT_MOST], text[INPUT_MOST];
static uint32_t words[WORDS];

static bool read_step(const uint8_t *line, size_t n, struct step *s)
{
    char copy[FRAME + 1] = "";

    if (n != FRAME)
        return false;
    for (size_t i = 0; i < FRAME; i++)
        if (line[i] == 0 || strchr("0123456789ABCDEF", line[i]) == NULL)
            return false;
    memcpy(copy, line, FRAME);
    return sscanf(copy, "%2x%2x%1x%8x", &s->kind, &s->offset, &s->enables,
                  &s->data) == 4;
}

static struct answer answer(struct controller *c, struct window *w,
                            const uint8_t *line, size_t n)
{
    struct step s;
    struct answer none = { .code = NOT_A_FRAME_LINE, .line = model_line(c),
                           .addon_line = model_addon_line(c) };

    return read_step(line, n, &s) ? model_step(c, w, &s) : none;
}

static void run(const uint8_t *at, const uint8_t *end,
                const char *const label[CODES], bool shown)
{
    struct controller c;
    struct window w = { words, 0, WORDS };

    model_reset(&c);
    while (at < end) {
        const uint8_t *lf = memchr(at, '\n', (size_t)(end - at));
        const uint8_t *past = lf == NULL ? end : lf;
        struct answer a = answer(&c, &w, at, (size_t)(past - at));

        if (shown)
            printf("%02X%08X%08X%X%X%X %s\n", a.code, a.address, a.data,
                   a.enables, a.line, a.addon_line, label[a.code]);
        at = past + 1;
    }
}

static int put_export(void)
{
    int64_t n = hexfile_export(words, WORDS, 0, text, INPUT_MOST);

    return n >= 0 && fwrite(text, 1, (size_t)n, stdout) == (size_t)n ? 0 : 1;
}

/* The code of the load; 1 if there is no such file. */
static int load(const char *name)
{
    FILE *f = fopen(name, "rb");
    size_t n;

    if (f == NULL)
        return 1;
    n = fread(text, 1, INPUT_MOST, f);
    fclose(f);
    return (int)-hexfile_load(words, WORDS, 0, text, n);
}

int main(int argc, char **argv)
{
    size_t n = fread(frames, 1, INPUT_MOST, stdin);
    bool is_load = argc == 3 && strcmp(argv[1], "load") == 0;
    bool is_both = argc == 3 && strcmp(argv[1], "both") == 0;
    bool is_export = argc == 2 && strcmp(argv[1], "export") == 0;
    int status = is_load || is_both ? load(argv[2]) : is_export ? 0 : 1;

    if (n < SET_LINE || frames[0] != '0' || frames[1] < '0'
        || frames[1] >= '0' + SETS || frames[2] != '\n')
        return 1;
    if (status != 0)
        return status;
    run(frames + SET_LINE, frames + n, model_label[frames[1] - '0'], is_load);
    return is_load ? 0 : put_export();
}
