/* steps.h: what the tests of s5933_step share: steps and controllers by
 * seed, and the step's words beside a log line and the second program's
 * model. */
#ifndef STEPS_H
#define STEPS_H

#include "s5933.h"
#include "model.h"

/* The words of a controller by place. */
enum {
    W_MAIL = 0, W_FROM_PCI = 8, W_FROM_ADDON = 16,
    W_MARKS = 24, W_INTCSR, W_MCSR, W_AINT,
    W_READ_ADDRESS, W_READ_COUNT, W_PCI_HEAD, W_PCI_FILL,
    W_WRITE_ADDRESS, W_WRITE_COUNT, W_ADDON_HEAD, W_ADDON_FILL,
    W_READ_RIGHT, W_WRITE_RIGHT
};

/* 0 to n - 1, by guard.h's numbers. */
uint32_t below(uint32_t n);

/* A step that a frame can say, over a memory of so many words at 0; most
 * get somewhere. */
struct step random_step(uint32_t memory_words);

/* A controller in form, its addresses in a window of so many words or just
 * behind; one in two has both rights or could have them. */
void random_controller(uint32_t *word, uint32_t start, uint32_t count);

/* What the log line says; the marks changed, which it doesn't, are none. */
s5933_answer answer_in(const uint8_t *line);

/* Whether a log would show the same of both. */
bool same_in_log(const s5933_answer *a, const s5933_answer *b);

/* Whether the code is one that leaves every word as it was. */
bool is_refusal(int64_t code);

/* The controller that 38 words stand for, and whether they stand for one. */
struct controller controller_of(const uint32_t *word);
bool is_controller(const uint32_t *word);

#endif
