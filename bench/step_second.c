/* step_second.c: s5933_step by the second program's model, for the bench.
 *
 * The model has a struct of its own, so the words are read into one before
 * the step and written back after it. That is done for speed: the call is
 * one function, with the model in it; of a FIFO only the words held are
 * read, and only a word that came is written; a refused step writes nothing
 * back. */
#include "s5933.h"

#include "model.c"

/* The places of the controller's words. A FIFO is a ring. */
enum {
    AT_MAIL = 0, AT_TO_ADDON = 8, AT_TO_PCI = 16, AT_MARKS = 24, AT_INTCSR,
    AT_MCSR, AT_AINT, AT_READ_ADDRESS, AT_READ_COUNT, AT_TO_ADDON_HEAD,
    AT_TO_ADDON_FILL, AT_WRITE_ADDRESS, AT_WRITE_COUNT, AT_TO_PCI_HEAD,
    AT_TO_PCI_FILL, AT_READ_RIGHT, AT_WRITE_RIGHT
};

_Static_assert(AT_WRITE_RIGHT == S5933_CONTROLLER_WORDS - 1, "38 words");
_Static_assert(sizeof(struct answer) == S5933_ANSWER_WORDS * sizeof(uint32_t),
               "an answer is its words in order");

/* A fill above 8 is left to the model, which refuses it. */
static inline void read_fifo(struct fifo *f, const uint32_t *ring,
                             uint32_t head, uint32_t fill)
{
    f->fill = fill;
    for (uint32_t i = 0; i < fill && i < FIFO_WORDS; i++)
        f->word[i] = ring[(head + i) % FIFO_WORDS];
}

/* A step takes words from the front or puts one word behind the others. */
static inline void write_fifo(const struct fifo *f, uint32_t *ring,
                              uint32_t *head, uint32_t *fill)
{
    if (f->fill > *fill)
        ring[(*head + *fill) % FIFO_WORDS] = f->word[*fill];
    else
        *head = (*head + *fill - f->fill) % FIFO_WORDS;
    *fill = f->fill;
}

static inline void read_words(struct controller *c, const uint32_t *w)
{
    memcpy(c->mail, w + AT_MAIL, sizeof c->mail);
    c->marks = w[AT_MARKS];
    read_fifo(&c->to_addon, w + AT_TO_ADDON, w[AT_TO_ADDON_HEAD],
              w[AT_TO_ADDON_FILL]);
    read_fifo(&c->to_pci, w + AT_TO_PCI, w[AT_TO_PCI_HEAD],
              w[AT_TO_PCI_FILL]);
    c->write_address = w[AT_WRITE_ADDRESS];
    c->write_count = w[AT_WRITE_COUNT];
    c->read_address = w[AT_READ_ADDRESS];
    c->read_count = w[AT_READ_COUNT];
    c->intcsr = w[AT_INTCSR];
    c->mcsr = w[AT_MCSR];
    c->aint = w[AT_AINT];
    c->write_right = w[AT_WRITE_RIGHT];
    c->read_right = w[AT_READ_RIGHT];
}

static inline void write_words(const struct controller *c, uint32_t *w)
{
    memcpy(w + AT_MAIL, c->mail, sizeof c->mail);
    w[AT_MARKS] = c->marks;
    write_fifo(&c->to_addon, w + AT_TO_ADDON, &w[AT_TO_ADDON_HEAD],
               &w[AT_TO_ADDON_FILL]);
    write_fifo(&c->to_pci, w + AT_TO_PCI, &w[AT_TO_PCI_HEAD],
               &w[AT_TO_PCI_FILL]);
    w[AT_WRITE_ADDRESS] = c->write_address;
    w[AT_WRITE_COUNT] = c->write_count;
    w[AT_READ_ADDRESS] = c->read_address;
    w[AT_READ_COUNT] = c->read_count;
    w[AT_INTCSR] = c->intcsr;
    w[AT_MCSR] = c->mcsr;
    w[AT_AINT] = c->aint;
    w[AT_WRITE_RIGHT] = c->write_right;
    w[AT_READ_RIGHT] = c->read_right;
}

__attribute__((flatten))
int64_t s5933_step(uint32_t *controller, size_t controller_words,
                   uint32_t *memory, size_t memory_words, uint32_t start,
                   uint32_t kind, uint32_t offset, uint32_t enables,
                   uint32_t data, uint32_t *answer, size_t answer_words)
{
    struct window window = {
        memory, start,
        memory_words <= WINDOW_WORDS_MAX ? (uint32_t)memory_words : UINT32_MAX
    };
    struct step s = { kind, offset, enables, data };
    struct controller c;
    struct answer a;

    if (controller_words != S5933_CONTROLLER_WORDS
        || answer_words != S5933_ANSWER_WORDS)
        return -1;
    read_words(&c, controller);
    a = model_step(&c, &window, &s);
    if (a.code == DONE || a.code == NO_MEMORY_THERE)
        write_words(&c, controller);
    memcpy(answer, &a, sizeof a);
    return a.code;
}
