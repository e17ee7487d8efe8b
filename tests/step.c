/* step.c: s5933_step, a call for each step on a controller that stays,
 * against s5933_log, which gets the same frames as a text.
 *
 *   step STEPS
 *
 * Of each step, made by its numbers or by the header's function for its
 * kind: the answer is the log's line, the marks changed are those of offset
 * 34 before and after, a refusal leaves every word of the controller. Of
 * each batch: the memory is what the done write cycles make of it. Every
 * code that frames can reach has to come, and most steps have to be done. */
#include "guard.h"
#include "steps.h"

#include <stdio.h>
#include <stdlib.h>
#include <string.h>

enum {
    FRAME_BYTES = S5933_FRAME_DIGITS + 1,
    BATCH = S5933_INPUT_MOST / FRAME_BYTES,
    WORDS = 4096
};

static uint8_t input[BATCH * FRAME_BYTES + 1];
static uint8_t output[BATCH * S5933_LINE_ROOM];
static struct step steps[BATCH];
static s5933_controller chip;
static uint32_t memory[WORDS], written[WORDS];
static const s5933_window window = { memory, WORDS, 0 };
static unsigned long reached[NO_MEMORY_THERE + 1];

static void check(bool good, const struct step *s, const char *what)
{
    if (good)
        return;
    snprintf(current, sizeof current, "frame %02X%02X%X%08X",
             (unsigned)s->kind, (unsigned)s->offset, (unsigned)s->enables,
             (unsigned)s->data);
    fail(what);
}

/* Stores the enabled bytes that a done write cycle tells. */
static void note_write(const s5933_answer *a)
{
    for (unsigned i = 0; i < 4; i++)
        if (a->enables >> i & 1) {
            uint32_t mask = UINT32_C(0xFF) << 8 * i;
            uint32_t *word = &written[a->address / 4 % WORDS];

            *word = (*word & ~mask) | (a->data & mask);
        }
}

static uint32_t marks(void)
{
    return s5933_pci_read(&chip, &window, S5933_MBEF, 15).data;
}

static s5933_answer by_numbers(const struct step *s)
{
    return s5933_do(&chip, &window, s->kind, s->offset, s->enables, s->data);
}

static s5933_answer by_name(const struct step *s)
{
    const uint32_t offset = s->offset, enables = s->enables;

    switch (s->kind) {
    case PCI_READ:
        return s5933_pci_read(&chip, &window, offset, enables);
    case PCI_WRITE:
        return s5933_pci_write(&chip, &window, offset, enables, s->data);
    case ADDON_READ:
        return s5933_addon_read(&chip, &window, offset, enables);
    case ADDON_WRITE:
        return s5933_addon_write(&chip, &window, offset, enables, s->data);
    case WRITE_CYCLE:
        return s5933_write_cycle(&chip, &window);
    case READ_CYCLE:
        return s5933_read_cycle(&chip, &window);
    case CHIP_RESET:
        return s5933_chip_reset(&chip, &window);
    default:
        return by_numbers(s);
    }
}

static void take_step(const struct step *s, const uint8_t *line)
{
    const s5933_controller before = chip;
    const uint32_t marks_before = marks();
    s5933_answer logged = answer_in(line);
    s5933_answer a = below(2) == 0 ? by_numbers(s) : by_name(s);
    bool mail = a.code == S5933_DONE && s->kind <= S5933_ADDON_WRITE
             && s->offset <= S5933_IMB4;

    check(same_in_log(&a, &logged), s, "the answer is not the log's");
    check(!is_refusal(a.code) || memcmp(&chip, &before, sizeof chip) == 0, s,
          "a refusal changes the controller");
    check(a.changed == (mail ? marks_before ^ marks() : 0), s,
          "other marks are told than changed");
    if (a.code == S5933_DONE && s->kind == S5933_WRITE_CYCLE)
        note_write(&a);
    reached[a.code]++;
}

/* Steps from reset, as a text and one by one. */
static void batch(size_t count)
{
    const uint8_t *line = output;
    size_t used = 0;
    int64_t log;

    for (size_t i = 0; i < count; i++) {
        struct step *s = &steps[i];

        *s = random_step(WORDS);
        used += (size_t)sprintf((char *)input + used, "%02X%02X%X%08X\n",
                                (unsigned)s->kind, (unsigned)s->offset,
                                (unsigned)s->enables, (unsigned)s->data);
    }
    log = s5933_log(input, used, output, sizeof output, S5933_ENGLISH);
    if (log < 0)
        fail("the log is refused");
    s5933_init(&chip);
    memset(memory, 0, sizeof memory);
    memset(written, 0, sizeof written);
    for (size_t i = 0; i < count; i++) {
        take_step(&steps[i], line);
        line = (const uint8_t *)memchr(line, '\n', S5933_LINE_ROOM) + 1;
    }
    if (line != output + log)
        fail("the log has more lines");
    if (memcmp(memory, written, sizeof memory) != 0)
        fail("the memory is not what the write cycles stored");
}

int main(int argc, char **argv)
{
    unsigned long left, steps_all;

    if (argc != 2 || (steps_all = strtoul(argv[1], NULL, 10)) == 0) {
        fputs("usage: step STEPS\n", stderr);
        return 2;
    }
    guard_set_up("step", 0);
    for (left = steps_all; left > BATCH; left -= BATCH)
        batch(BATCH);
    batch(left);
    for (uint32_t code = 0; code <= NO_MEMORY_THERE; code++)
        if (reached[code] == 0 && code != STATE_OUT_OF_FORM
            && code != WINDOW_OUT_OF_FORM && code != BAD_ENABLES)
            fail("a code was not reached");
    if (reached[S5933_DONE] < steps_all / 2)
        fail("too few steps were done");
    printf("step: %lu steps as the log, %lu done\n", steps_all,
           reached[S5933_DONE]);
    return 0;
}
