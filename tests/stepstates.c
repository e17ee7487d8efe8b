/* stepstates.c: s5933_step on words of every sort, against the second
 * program's model.
 *
 *   stepstates TRIALS
 *
 * Controllers in form, with each reason of code 1 alone and with each two of
 * them; then TRIALS with any words in any place. Any heads, starts, windows
 * and numbers. Answer, state left and memory left are the model's; a refusal
 * leaves every word. Every code and each reason alone has to come. */
#include "guard.h"
#include "steps.h"

#include <stdio.h>
#include <stdlib.h>
#include <string.h>

enum {
    SMALL = 12, MEMORY = WINDOW_WORDS_MAX + 8,
    EACH_ALONE = 1000, EACH_PAIR = 60
};

/* How a reason changes a word. */
enum how { ANY_OF, NONE_OF, EXACTLY, AT_LEAST };

/* A reason of code 1: what it makes of a word, and the right that it is one
 * beside; 0 if it needs none. */
struct reason {
    const char *name;
    int at;
    enum how how;
    uint32_t number;
    int right;
};

static const struct reason reasons[] = {
    { "fill from PCI", W_PCI_FILL, AT_LEAST, 9, 0 },
    { "fill from Add-On", W_ADDON_FILL, AT_LEAST, 9, 0 },
    { "read address", W_READ_ADDRESS, ANY_OF, 3, 0 },
    { "write address", W_WRITE_ADDRESS, ANY_OF, 3, 0 },
    { "read count", W_READ_COUNT, ANY_OF, 0xFC000000, 0 },
    { "write count", W_WRITE_COUNT, ANY_OF, 0xFC000000, 0 },
    { "INTCSR", W_INTCSR, ANY_OF, 0xFFC020E0, 0 },
    { "MCSR", W_MCSR, ANY_OF, 0xFFFF08FF, 0 },
    { "AINT", W_AINT, ANY_OF, 0xFFD020E0, 0 },
    { "reads, full", W_PCI_FILL, EXACTLY, 8, W_READ_RIGHT },
    { "reads, count", W_READ_COUNT, EXACTLY, 0, W_READ_RIGHT },
    { "reads, MCSR 13", W_MCSR, NONE_OF, 1 << 13, W_READ_RIGHT },
    { "reads, MCSR 14", W_MCSR, NONE_OF, 1 << 14, W_READ_RIGHT },
    { "reads, INTCSR 20", W_INTCSR, ANY_OF, 1 << 20, W_READ_RIGHT },
    { "reads, INTCSR 21", W_INTCSR, ANY_OF, 1 << 21, W_READ_RIGHT },
    { "writes, empty", W_ADDON_FILL, EXACTLY, 0, W_WRITE_RIGHT },
    { "writes, count", W_WRITE_COUNT, EXACTLY, 0, W_WRITE_RIGHT },
    { "writes, MCSR 9", W_MCSR, NONE_OF, 1 << 9, W_WRITE_RIGHT },
    { "writes, MCSR 10", W_MCSR, NONE_OF, 1 << 10, W_WRITE_RIGHT },
    { "writes, INTCSR 20", W_INTCSR, ANY_OF, 1 << 20, W_WRITE_RIGHT },
    { "writes, INTCSR 21", W_INTCSR, ANY_OF, 1 << 21, W_WRITE_RIGHT },
    { "right of reads", W_READ_RIGHT, AT_LEAST, 2, 0 },
    { "right of writes", W_WRITE_RIGHT, AT_LEAST, 2, 0 }
};
enum { REASONS = sizeof reasons / sizeof reasons[0] };

struct trial {
    uint32_t word[S5933_CONTROLLER_WORDS];
    uint32_t start, count;
    struct step step;
};

static uint32_t memory[MEMORY], model_memory[MEMORY];
static unsigned long calls, codes[NO_MEMORY_THERE + 1], alone[REASONS];

/* ---- a trial ---- */

static void fail_trial(const struct trial *t, const char *what)
{
    printf("words:");
    for (int i = 0; i < S5933_CONTROLLER_WORDS; i++)
        printf(" %X", (unsigned)t->word[i]);
    printf("\nstart %X, %u words, step %X %X %X %X\n", (unsigned)t->start,
           (unsigned)t->count, (unsigned)t->step.kind,
           (unsigned)t->step.offset, (unsigned)t->step.enables,
           (unsigned)t->step.data);
    fail(what);
}

/* What the words are to be answered, and the state that is left of them. */
static struct answer wanted(const struct trial *t, struct controller *left)
{
    const struct window w = { model_memory, t->start, t->count };

    *left = controller_of(t->word);
    if (!is_controller(t->word))
        return (struct answer){ .code = STATE_OUT_OF_FORM };
    return model_step(left, &w, &t->step);
}

/* Makes the step, and compares everything; its code. */
static uint32_t run(const struct trial *t)
{
    uint32_t word[S5933_CONTROLLER_WORDS], told[S5933_ANSWER_WORDS];
    struct controller left, leaves;
    const struct answer a = wanted(t, &left);
    const uint32_t as_words[] = { a.code, a.address, a.data, a.enables,
                                  a.line, a.addon_line, a.changed };
    int64_t returned;

    memcpy(word, t->word, sizeof word);
    memset(told, 0xEE, sizeof told);
    returned = s5933_step(word, S5933_CONTROLLER_WORDS, memory, t->count,
                          t->start, t->step.kind, t->step.offset,
                          t->step.enables, t->step.data, told,
                          S5933_ANSWER_WORDS);
    calls++;
    if (returned != a.code || memcmp(told, as_words, sizeof told) != 0) {
        printf("returned %lld, wanted %u\n", (long long)returned,
               (unsigned)a.code);
        fail_trial(t, "another answer");
    }
    if (memcmp(memory, model_memory, t->count * sizeof memory[0]) != 0)
        fail_trial(t, "another memory");
    if (is_refusal(a.code) && memcmp(word, t->word, sizeof word) != 0)
        fail_trial(t, "a refusal changes a word");
    leaves = controller_of(word);
    if (!is_refusal(a.code) && !model_same(&leaves, &left))
        fail_trial(t, "another state");
    codes[a.code]++;
    return a.code;
}

/* ---- making trials ---- */

/* Some windows are out of form, some wrap, and now and then one is large. */
static void random_window(struct trial *t)
{
    static const uint32_t large[] = { WINDOW_WORDS_MAX - 1, WINDOW_WORDS_MAX,
                                      WINDOW_WORDS_MAX + 1, MEMORY };

    t->count = below(64) == 0 ? large[below(4)] : below(SMALL + 1);
    t->start = below(3) == 0 ? 4 * below(SMALL) : random32();
    if (below(4) == 0)
        t->start = UINT32_MAX - below(4 * SMALL);
    if (below(8) != 0)
        t->start &= ~UINT32_C(3);
}

/* Numbers near those that mean something, or any. */
static uint32_t random_number(uint32_t likely)
{
    return below(16) == 0 ? random32() : below(likely);
}

static void random_numbers(struct step *s)
{
    s->kind = random_number(CHIP_RESET + 2);
    s->offset = below(8) == 0 ? random_number(0x50) : 4 * below(REGISTERS);
    s->enables = below(2) == 0 ? 15 : random_number(18);
    s->data = random32();
}

static struct trial in_form(void)
{
    struct trial t;

    random_window(&t);
    random_controller(t.word, t.start, t.count);
    random_numbers(&t.step);
    return t;
}

/* One of the bits, or any of them. */
static uint32_t some_of(uint32_t bits)
{
    uint32_t some;

    do
        some = bits & (below(2) == 0 ? UINT32_C(1) << below(32) : random32());
    while (some == 0);
    return some;
}

static void give(struct trial *t, const struct reason *r)
{
    uint32_t *word = &t->word[r->at];

    if (r->right != 0)
        t->word[r->right] = 1;
    switch (r->how) {
    case ANY_OF:  *word |= some_of(r->number); break;
    case NONE_OF: *word &= ~r->number; break;
    case EXACTLY: *word = r->number; break;
    default:      *word = r->number
                        + (below(2) == 0 ? 0 : below(UINT32_MAX - r->number));
    }
}

/* In form, with every end of a burst far, and no right. */
static struct trial without_reason(void)
{
    struct trial t;

    do
        t = in_form();
    while ((t.word[W_READ_RIGHT] | t.word[W_WRITE_RIGHT]) == 0);
    t.word[W_READ_RIGHT] = t.word[W_WRITE_RIGHT] = 0;
    return t;
}

/* ---- all of them ---- */

static void each_alone(void)
{
    for (int i = 0; i < REASONS; i++)
        for (int n = 0; n < EACH_ALONE; n++) {
            struct trial t = without_reason();

            snprintf(current, sizeof current, "%s alone", reasons[i].name);
            if (run(&t) == STATE_OUT_OF_FORM)
                fail_trial(&t, "out of form without it");
            give(&t, &reasons[i]);
            alone[i] += run(&t) == STATE_OUT_OF_FORM;
        }
}

static void each_pair(void)
{
    for (int i = 0; i < REASONS; i++)
        for (int k = 0; k < i; k++)
            for (int n = 0; n < EACH_PAIR; n++) {
                struct trial t = without_reason();

                snprintf(current, sizeof current, "%s and %s",
                         reasons[i].name, reasons[k].name);
                give(&t, &reasons[i]);
                give(&t, &reasons[k]);
                run(&t);
            }
}

/* Any words in a few places, or in none. */
static void any_words(unsigned long trials)
{
    static const uint32_t numbers[] = { 0, 1, 2, 7, 8, 9, 10, UINT32_MAX };

    snprintf(current, sizeof current, "any words");
    for (unsigned long n = 0; n < trials; n++) {
        struct trial t = in_form();

        for (uint32_t i = below(4) == 0 ? 1 + below(3) : 0; i > 0; i--)
            t.word[below(S5933_CONTROLLER_WORDS)] =
                below(2) == 0 ? numbers[below(8)] : random32();
        run(&t);
    }
}

/* Every code, and each reason each time that it stood alone. */
static bool all_reached(void)
{
    bool all = true;

    for (int i = 0; i <= NO_MEMORY_THERE; i++)
        all = all && codes[i] > 0;
    for (int i = 0; i < REASONS; i++)
        all = all && alone[i] == EACH_ALONE;
    for (int i = 0; i <= NO_MEMORY_THERE && !all; i++)
        printf("code %d: %lu\n", i, codes[i]);
    for (int i = 0; i < REASONS && !all; i++)
        printf("%s alone: %lu of %d\n", reasons[i].name, alone[i],
               EACH_ALONE);
    return all;
}

int main(int argc, char **argv)
{
    if (argc != 2) {
        fputs("usage: stepstates TRIALS\n", stderr);
        return 2;
    }
    guard_set_up("stepstates", 0);
    for (int i = 0; i < MEMORY; i++)
        memory[i] = model_memory[i] = random32();
    each_alone();
    each_pair();
    any_words(strtoul(argv[1], NULL, 10));
    if (!all_reached())
        fail("not all was reached");
    printf("stepstates: %lu steps as the second program\n", calls);
    return 0;
}
