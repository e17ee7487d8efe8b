/* steps.c: what the tests of s5933_step share. */
#include "steps.h"
#include "guard.h"

#include <string.h>

uint32_t below(uint32_t n)
{
    return random32() % n;
}

/* ---- steps ---- */

/* A write that gets a transfer going: addresses in the memory most often,
 * small counts, cycles on, flags acknowledged. */
static void aim(struct step *s, uint32_t memory_words)
{
    uint32_t any = random32();
    uint32_t address = below(8) == 0 ? any : 4 * below(memory_words + 8);
    static const uint32_t modes[] = { 0x4400, 0x4400, 0x6600, 0x4600, 0x6400 };

    s->kind = PCI_WRITE;
    s->enables = 15;
    switch (below(7)) {
    case 0:  s->offset = S5933_MWAR; s->data = address; break;
    case 1:  s->offset = S5933_MRAR; s->data = address; break;
    case 2:  s->offset = S5933_MWTC; s->data = below(64); break;
    case 3:  s->offset = S5933_MRTC; s->data = below(64); break;
    case 4:  s->offset = S5933_MCSR; s->data = modes[below(5)]; break;
    case 5:  s->offset = S5933_MCSR; s->data = any; break;
    default: s->offset = S5933_INTCSR; s->data = 0x3F0000 | (any & 0xFFFF);
    }
}

struct step random_step(uint32_t memory_words)
{
    struct step s;
    uint32_t sort = below(100);

    s.kind = below(4);
    s.offset = 4 * below(16);
    s.enables = below(3) == 0 ? below(16) : 15;
    s.data = random32();
    if (sort < 2) {
        s.kind = below(2) == 0 ? below(256) : below(10);
        s.offset = below(256);
    } else if (sort < 25) {
        s.kind = below(2) == 0 ? WRITE_CYCLE : READ_CYCLE;
    } else if (sort < 45) {
        aim(&s, memory_words);
    } else if (sort < 65) {
        s.offset = S5933_FIFO;
        s.enables = 15;
    } else if (sort == 65 && below(20) == 0) {
        s.kind = CHIP_RESET;
    }
    return s;
}

/* ---- answers ---- */

static uint32_t field(const uint8_t *line, size_t at, size_t digits)
{
    return (uint32_t)s5933_number(line, at, digits);
}

s5933_answer answer_in(const uint8_t *line)
{
    return (s5933_answer){
        .code = field(line, S5933_CODE_AT, S5933_CODE_DIGITS),
        .address = field(line, S5933_ADDRESS_AT, S5933_ADDRESS_DIGITS),
        .data = field(line, S5933_DATA_AT, S5933_DATA_DIGITS),
        .enables = field(line, S5933_ENABLES_AT, S5933_ENABLES_DIGITS),
        .line = field(line, S5933_INTERRUPT_AT, S5933_INTERRUPT_DIGITS),
        .addon_line = field(line, S5933_ADDON_INTERRUPT_AT,
                            S5933_ADDON_INTERRUPT_DIGITS)
    };
}

bool same_in_log(const s5933_answer *a, const s5933_answer *b)
{
    return a->code == b->code && a->address == b->address
        && a->data == b->data && a->enables == b->enables
        && a->line == b->line && a->addon_line == b->addon_line;
}

bool is_refusal(int64_t code)
{
    return code != S5933_DONE && code != S5933_NO_MEMORY_THERE;
}

/* ---- controllers ---- */

static uint32_t random_count(void)
{
    return below(4) == 0 ? random32() & 0x03FFFFFF : below(20);
}

static uint32_t random_head(void)
{
    return below(2) == 0 ? below(8) : random32();
}

/* A state in which either right may stand: neither FIFO at its end, both
 * counts above zero, cycles on by four, and no abort. */
static void let_burst(uint32_t *word)
{
    word[W_PCI_FILL] = below(FIFO_WORDS);
    word[W_ADDON_FILL] = 1 + below(FIFO_WORDS);
    word[W_READ_COUNT] |= 1;
    word[W_WRITE_COUNT] |= 1;
    word[W_MCSR] |= 0x6600;
    word[W_INTCSR] &= ~UINT32_C(0x300000);
    word[W_READ_RIGHT] = below(2);
    word[W_WRITE_RIGHT] = below(2);
}

void random_controller(uint32_t *word, uint32_t start, uint32_t count)
{
    uint32_t base = start & ~UINT32_C(3);

    for (int i = 0; i < W_MARKS; i++)
        word[i] = random32();
    word[W_MARKS] = random32();
    word[W_INTCSR] = random32() & (below(4) == 0 ? 0x3FDF1F : 0xFDF1F);
    word[W_MCSR] = random32() & 0xF700;
    word[W_AINT] = random32() & 0x2FDF1F;
    word[W_READ_ADDRESS] = base + 4 * below(count + 2);
    word[W_WRITE_ADDRESS] = base + 4 * below(count + 2);
    word[W_READ_COUNT] = random_count();
    word[W_WRITE_COUNT] = random_count();
    word[W_PCI_HEAD] = random_head();
    word[W_ADDON_HEAD] = random_head();
    word[W_PCI_FILL] = below(FIFO_WORDS + 1);
    word[W_ADDON_FILL] = below(FIFO_WORDS + 1);
    word[W_READ_RIGHT] = word[W_WRITE_RIGHT] = 0;
    if (below(2) == 0)
        let_burst(word);
}

static struct fifo fifo_of(const uint32_t *place, uint32_t head,
                           uint32_t fill)
{
    struct fifo f = { .fill = fill };

    for (uint32_t i = 0; i < FIFO_WORDS; i++)
        f.word[i] = place[(head + i) % FIFO_WORDS];
    return f;
}

bool is_controller(const uint32_t *word)
{
    return word[W_READ_RIGHT] <= 1 && word[W_WRITE_RIGHT] <= 1;
}

struct controller controller_of(const uint32_t *word)
{
    struct controller c = {
        .marks = word[W_MARKS], .intcsr = word[W_INTCSR],
        .mcsr = word[W_MCSR], .aint = word[W_AINT],
        .read_address = word[W_READ_ADDRESS],
        .read_count = word[W_READ_COUNT],
        .write_address = word[W_WRITE_ADDRESS],
        .write_count = word[W_WRITE_COUNT],
        .read_right = word[W_READ_RIGHT],
        .write_right = word[W_WRITE_RIGHT]
    };

    memcpy(c.mail, word + W_MAIL, sizeof c.mail);
    c.to_addon = fifo_of(word + W_FROM_PCI, word[W_PCI_HEAD],
                         word[W_PCI_FILL]);
    c.to_pci = fifo_of(word + W_FROM_ADDON, word[W_ADDON_HEAD],
                       word[W_ADDON_FILL]);
    return c;
}
