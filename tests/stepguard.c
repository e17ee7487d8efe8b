/* stepguard.c: s5933_step with its three runs of words against guard pages.
 *
 *   stepguard STEPS
 *
 * STEPS calls with controller, memory and answer each at the start or at the
 * end of its pages, next to a page that can't be touched. What they leave is
 * what the same call leaves of words elsewhere, and every other byte of the
 * pages is as it was. Then every length up to 64 words, and lengths above
 * 2^32, of controllers, memories and answers: where one is refused, what
 * must not be touched lies in pages that can't be. */
#include "guard.h"
#include "steps.h"

#include <stdio.h>
#include <stdlib.h>
#include <string.h>
#include <sys/mman.h>

enum { LENGTHS = 65, MEMORY_WORDS = WINDOW_WORDS_MAX, SIZES = 2 };

/* The three runs of a call. */
enum run { CONTROLLER, MEMORY, ANSWER, RUNS };

/* Lengths that 32 bits can't tell from good ones, and the longest. */
static const uint64_t huge[] = {
    (UINT64_C(1) << 32), (UINT64_C(1) << 32) + S5933_ANSWER_WORDS,
    (UINT64_C(1) << 32) + S5933_CONTROLLER_WORDS, UINT64_MAX / 8
};
enum { HUGE_LENGTHS = sizeof huge / sizeof huge[0] };

struct call {
    uint32_t *at[RUNS];
    size_t length[RUNS];
    uint32_t start;
    struct step step;
};

static const char *const names[RUNS] = { "controller", "memory", "answer" };

/* Pages of two sizes, so that a small memory costs little. */
static const size_t sizes[SIZES] = { PAGE, MEMORY_WORDS * sizeof(uint32_t) };
static struct pages pages[RUNS][SIZES];
static unsigned long calls;

static int64_t make(const struct call *c)
{
    snprintf(current, sizeof current, "controller of %zu words, memory of "
             "%zu, answer of %zu, kind %u", c->length[CONTROLLER],
             c->length[MEMORY], c->length[ANSWER], (unsigned)c->step.kind);
    calls++;
    return s5933_step(c->at[CONTROLLER], c->length[CONTROLLER],
                      c->at[MEMORY], c->length[MEMORY], c->start,
                      c->step.kind, c->step.offset, c->step.enables,
                      c->step.data, c->at[ANSWER], c->length[ANSWER]);
}

/* ---- lengths that are taken ---- */

/* The run's words in its pages, which have a pattern around them. */
static uint32_t *put(enum run run, enum place where, const uint8_t *fill,
                     const uint32_t *words, size_t count)
{
    size_t bytes = count * sizeof *words;
    const struct pages *p = fitting(pages[run], bytes);
    uint8_t *at = placed(p, where, bytes);

    memcpy(p->start, fill, p->size);
    if (count > 0)
        memcpy(at, words, bytes);
    return (void *)at;
}

static void compare(enum run run, const uint8_t *fill, const uint32_t *at,
                    const uint32_t *wanted, size_t count)
{
    size_t bytes = count * sizeof *at;
    const struct pages *p = fitting(pages[run], bytes);
    size_t before = (size_t)((const uint8_t *)at - p->start);
    size_t after = before + bytes;
    char what[64];

    snprintf(what, sizeof what, "other words, or a byte changed beside the "
             "%s", names[run]);
    if (memcmp(p->start, fill, before) != 0
        || (count > 0 && memcmp(at, wanted, bytes) != 0)
        || memcmp(p->start + after, fill + after, p->size - after) != 0)
        fail(what);
}

/* Any start, and now and then the longest memory. */
static struct call random_call(uint32_t *words[RUNS])
{
    struct call c = { .start = random32() & ~UINT32_C(3) };
    size_t count = below(50) == 0 ? MEMORY_WORDS - below(2) : below(20);

    c.length[CONTROLLER] = S5933_CONTROLLER_WORDS;
    c.length[MEMORY] = count;
    c.length[ANSWER] = S5933_ANSWER_WORDS;
    c.step = random_step(0);
    if (below(2) == 0)
        c.step.kind = below(2) == 0 ? S5933_WRITE_CYCLE : S5933_READ_CYCLE;
    random_controller(words[CONTROLLER], c.start, (uint32_t)count);
    for (size_t i = 0; i < count; i++)
        words[MEMORY][i] = random32();
    return c;
}

static void taken(void)
{
    static uint32_t controller[S5933_CONTROLLER_WORDS];
    static uint32_t memory[MEMORY_WORDS], answer[S5933_ANSWER_WORDS];
    uint32_t *words[RUNS] = { controller, memory, answer };
    struct call plain = random_call(words), guarded = plain;
    const uint8_t *fill = next_pattern();
    int64_t wanted;

    for (enum run r = 0; r < RUNS; r++) {
        guarded.at[r] = put(r, below(PLACES), fill, words[r],
                            plain.length[r]);
        plain.at[r] = words[r];
    }
    wanted = make(&plain);
    if (make(&guarded) != wanted)
        fail("another answer at other places");
    for (enum run r = 0; r < RUNS; r++)
        compare(r, fill, guarded.at[r], words[r], plain.length[r]);
}

/* ---- lengths that are refused ---- */

static size_t length_of(int number)
{
    return number < LENGTHS ? (size_t)number : huge[number - LENGTHS];
}

/* A call on the pages, from their start on, with good lengths. */
static struct call on_pages(uint32_t kind)
{
    struct call c = {
        .length = { S5933_CONTROLLER_WORDS, 0, S5933_ANSWER_WORDS },
        .step = { kind, 0, 15, 0 }
    };

    for (enum run r = 0; r < RUNS; r++)
        c.at[r] = (void *)pages[r][0].start;
    return c;
}

/* An answer of another length: nothing is touched. */
static void answer_lengths(void)
{
    struct call c = on_pages(S5933_CHIP_RESET);

    for (enum run r = 0; r < RUNS; r++)
        protect(&pages[r][0], PROT_NONE);
    for (int n = 0; n < LENGTHS + HUGE_LENGTHS; n++)
        for (int k = 0; k < LENGTHS + HUGE_LENGTHS; k++) {
            c.length[ANSWER] = length_of(n);
            c.length[CONTROLLER] = length_of(k);
            if (n != S5933_ANSWER_WORDS && make(&c) != S5933_NO_ANSWER)
                fail("an answer of that length is taken");
        }
    for (enum run r = 0; r < RUNS; r++)
        protect(&pages[r][0], PROT_READ | PROT_WRITE);
}

/* The code and six words, at the end of the answer's pages. */
static void answered(struct call *c, uint32_t code, uint32_t line)
{
    const uint32_t wanted[] = { code, 0, 0, 0, line, line, 0 };
    const uint8_t *fill = next_pattern();

    c->at[ANSWER] = put(ANSWER, AT_END, fill, wanted, S5933_ANSWER_WORDS);
    memset(c->at[ANSWER], 0xEE, sizeof wanted);
    if (make(c) != code)
        fail("another code");
    compare(ANSWER, fill, c->at[ANSWER], wanted, S5933_ANSWER_WORDS);
}

/* A controller of another length: neither it nor the memory is touched. */
static void controller_lengths(void)
{
    struct call c = on_pages(S5933_CHIP_RESET);

    protect(&pages[CONTROLLER][0], PROT_NONE);
    protect(&pages[MEMORY][0], PROT_NONE);
    for (int n = 0; n < LENGTHS + HUGE_LENGTHS; n++)
        for (uint32_t kind = 0; kind <= S5933_CHIP_RESET + 1; kind++) {
            c.length[CONTROLLER] = length_of(n);
            c.length[MEMORY] = kind;
            c.step.kind = kind;
            if (n != S5933_CONTROLLER_WORDS)
                answered(&c, S5933_STATE_OUT_OF_FORM, 0);
        }
    protect(&pages[CONTROLLER][0], PROT_READ | PROT_WRITE);
    protect(&pages[MEMORY][0], PROT_READ | PROT_WRITE);
}

/* A memory that is too long: it is not touched, the controller not written.
 * Both lines are raised, by the aborts that stand. */
static void memory_lengths(void)
{
    struct call c = on_pages(S5933_CHIP_RESET);
    uint32_t *word = c.at[CONTROLLER];

    memset(word, 0, S5933_CONTROLLER_WORDS * sizeof *word);
    word[W_INTCSR] = 1 << 20;
    word[W_AINT] = 1 << 21;
    protect(&pages[CONTROLLER][0], PROT_READ);
    protect(&pages[MEMORY][0], PROT_NONE);
    for (uint32_t kind = 0; kind <= S5933_CHIP_RESET + 1; kind++)
        for (int n = 0; n <= HUGE_LENGTHS; n++) {
            c.length[MEMORY] = n < HUGE_LENGTHS ? huge[n]
                                                : WINDOW_WORDS_MAX + 1;
            c.step.kind = kind;
            answered(&c, S5933_WINDOW_OUT_OF_FORM, 1);
        }
    protect(&pages[CONTROLLER][0], PROT_READ | PROT_WRITE);
    protect(&pages[MEMORY][0], PROT_READ | PROT_WRITE);
}

int main(int argc, char **argv)
{
    if (argc != 2) {
        fputs("usage: stepguard STEPS\n", stderr);
        return 2;
    }
    guard_set_up("stepguard", sizes[SIZES - 1]);
    for (enum run r = 0; r < RUNS; r++)
        for (int i = 0; i < SIZES; i++)
            pages[r][i] = new_pages(sizes[i]);
    for (unsigned long n = strtoul(argv[1], NULL, 10); n > 0; n--)
        taken();
    answer_lengths();
    controller_lengths();
    memory_lengths();
    printf("stepguard: %lu calls\n", calls);
    return 0;
}
