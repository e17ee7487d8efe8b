/* model.c: the controller of documents 01 and 02.
 * Part of the second program, written from documents 01 and 02 alone. */
#include "model.h"

#include <string.h>

#define BIT(n) (UINT32_C(1) << (n))

#define COUNT_KEPT   UINT32_C(0x03FFFFFF)
#define ADDRESS_KEPT UINT32_C(0xFFFFFFFC)
#define INTCSR_KEPT  UINT32_C(0x0000DF1F)
#define INTCSR_FLAGS UINT32_C(0x003F0000)   /* cleared by written ones */
#define INTCSR_ABORT UINT32_C(0x00300000)   /* bits 20 and 21 */
#define MCSR_KEPT    UINT32_C(0x0000F700)
#define MCSR_WRITES  UINT32_C(0x00000600)   /* 9 and the enable, 10 */
#define MCSR_READS   UINT32_C(0x00006000)   /* 13 and the enable, 14 */
#define AINT_KEPT    UINT32_C(0x0000DF1F)
#define AINT_FLAGS   UINT32_C(0x002F0000)   /* the same; 20 is not there */

const char *const model_label[SETS][CODES] = {
    [ENGLISH] = {
        "done", "state out of form", "window out of form", "unknown step",
        "unknown offset", "bad enables", "part FIFO access",
        "read-only register", "FIFO full or empty", "transfer off",
        "count is zero", "abort stands", "FIFO not ready",
        "no memory there", "not a frame line", "unknown label set"
    },
    [GERMAN] = {
        "erledigt", "Zustand ungueltig", "Fenster ungueltig",
        "Schritt unbekannt", "Offset unbekannt", "Freigabe ungueltig",
        "FIFO-Teilzugriff", "nur lesbar", "FIFO voll/leer", "Transfer aus",
        "Zaehler ist null", "Abbruch steht an", "FIFO nicht bereit",
        "kein Speicher dort", "keine Rahmenzeile", "Textsatz unbekannt"
    }
};

/* The data bits that each value of the enables lets through. */
static const uint32_t enabled_bits[16] = {
    0x00000000, 0x000000FF, 0x0000FF00, 0x0000FFFF,
    0x00FF0000, 0x00FF00FF, 0x00FFFF00, 0x00FFFFFF,
    0xFF000000, 0xFF0000FF, 0xFF00FF00, 0xFF00FFFF,
    0xFFFF0000, 0xFFFF00FF, 0xFFFFFF00, 0xFFFFFFFF
};

void model_reset(struct controller *c)
{
    memset(c, 0, sizeof *c);
}

uint32_t model_line(const struct controller *c)
{
    uint32_t r = c->intcsr;
    uint32_t events = (r >> 16 & r >> 4) | (r >> 17 & r >> 12)
                    | (r >> 18 & r >> 14) | (r >> 19 & r >> 15);

    return (events | r >> 20 | r >> 21) & 1;
}

/* AINT has the same four events, and one abort bit. */
uint32_t model_addon_line(const struct controller *c)
{
    uint32_t a = c->aint;
    uint32_t events = (a >> 16 & a >> 4) | (a >> 17 & a >> 12)
                    | (a >> 18 & a >> 14) | (a >> 19 & a >> 15);

    return (events | a >> 21) & 1;
}

static bool same_fifo(const struct fifo *a, const struct fifo *b)
{
    size_t n = a->fill < FIFO_WORDS ? a->fill : FIFO_WORDS;

    return a->fill == b->fill
        && memcmp(a->word, b->word, n * sizeof a->word[0]) == 0;
}

bool model_same(const struct controller *a, const struct controller *b)
{
    return memcmp(a->mail, b->mail, sizeof a->mail) == 0
        && a->marks == b->marks
        && same_fifo(&a->to_addon, &b->to_addon)
        && same_fifo(&a->to_pci, &b->to_pci)
        && a->write_address == b->write_address
        && a->write_count == b->write_count
        && a->read_address == b->read_address
        && a->read_count == b->read_count
        && a->intcsr == b->intcsr && a->mcsr == b->mcsr
        && a->aint == b->aint && a->write_right == b->write_right
        && a->read_right == b->read_right;
}

static bool aborted(const struct controller *c)
{
    return (c->intcsr & INTCSR_ABORT) != 0;
}

/* Whether a right to go on with fewer than four words, or less room, may
 * stand: none of what ends it holds. */

static bool write_may_go_on(const struct controller *c)
{
    return c->to_pci.fill != 0 && c->write_count != 0
        && (c->mcsr & MCSR_WRITES) == MCSR_WRITES && !aborted(c);
}

static bool read_may_go_on(const struct controller *c)
{
    return c->to_addon.fill != FIFO_WORDS && c->read_count != 0
        && (c->mcsr & MCSR_READS) == MCSR_READS && !aborted(c);
}

static bool rights_in_form(const struct controller *c)
{
    return (!c->write_right || write_may_go_on(c))
        && (!c->read_right || read_may_go_on(c));
}

/* After a step that may have brought an end of either. */
static void end_rights(struct controller *c)
{
    if (c->write_right && !write_may_go_on(c))
        c->write_right = 0;
    if (c->read_right && !read_may_go_on(c))
        c->read_right = 0;
}

static bool state_in_form(const struct controller *c)
{
    return c->to_addon.fill <= FIFO_WORDS && c->to_pci.fill <= FIFO_WORDS
        && ((c->write_address | c->read_address) & ~ADDRESS_KEPT) == 0
        && ((c->write_count | c->read_count) & ~COUNT_KEPT) == 0
        && (c->intcsr & ~(INTCSR_KEPT | INTCSR_FLAGS)) == 0
        && (c->mcsr & ~MCSR_KEPT) == 0
        && (c->aint & ~(AINT_KEPT | AINT_FLAGS)) == 0
        && ((c->write_right | c->read_right) == 0 || rights_in_form(c));
}

static bool window_in_form(const struct window *w)
{
    return w->start % 4 == 0 && w->count <= WINDOW_WORDS_MAX;
}

static struct answer answer_of(const struct controller *c, uint32_t code,
                               uint32_t data)
{
    return (struct answer){ .code = code, .data = data,
                            .line = model_line(c),
                            .addon_line = model_addon_line(c) };
}

/* The caller sees to it that there is room. */
static void fifo_put(struct fifo *f, uint32_t word)
{
    f->word[f->fill] = word;
    f->fill++;
}

/* The caller sees to it that a word is held. */
static uint32_t fifo_take(struct fifo *f)
{
    uint32_t front = f->word[0];

    memmove(f->word, f->word + 1, sizeof f->word - sizeof f->word[0]);
    f->fill--;
    return front;
}

/* old with the bits of mask taken from data */
static uint32_t merge(uint32_t old, uint32_t data, uint32_t mask)
{
    return (old & ~mask) | (data & mask);
}

static uint32_t intcsr_read(const struct controller *c)
{
    return c->intcsr | model_line(c) << 23;
}

static uint32_t aint_read(const struct controller *c)
{
    return c->aint | model_addon_line(c) << 23;
}

/* Three bits of each FIFO: empty; of the one towards PCI four words or
 * more held, of the other room for four or more; full. */

static uint32_t to_pci_status(const struct controller *c)
{
    uint32_t held = c->to_pci.fill;

    return (uint32_t)(held == 0) << 2
         | (uint32_t)(held >= 4) << 1
         | (uint32_t)(held == FIFO_WORDS);
}

static uint32_t to_addon_status(const struct controller *c)
{
    uint32_t room = FIFO_WORDS - c->to_addon.fill;

    return (uint32_t)(room == FIFO_WORDS) << 2
         | (uint32_t)(room >= 4) << 1
         | (uint32_t)(room == 0);
}

static uint32_t mcsr_read(const struct controller *c)
{
    return c->mcsr
         | (uint32_t)(c->write_count == 0) << 7
         | (uint32_t)(c->read_count == 0) << 6
         | to_pci_status(c) << 3 | to_addon_status(c);
}

/* The other way round, and nothing held. */
static uint32_t agcsts_read(const struct controller *c)
{
    return to_addon_status(c) << 3 | to_pci_status(c);
}

/* Bits written as one clear a flag; the kept bits take what is written. */

static void intcsr_write(struct controller *c, uint32_t data, uint32_t mask)
{
    c->intcsr &= ~(data & mask & INTCSR_FLAGS);
    c->intcsr = merge(c->intcsr, data, mask & INTCSR_KEPT);
}

static void aint_write(struct controller *c, uint32_t data, uint32_t mask)
{
    c->aint &= ~(data & mask & AINT_FLAGS);
    c->aint = merge(c->aint, data, mask & AINT_KEPT);
}

/* Sets the flags of the register that watches for what the other side
 * does: it takes the status bits that have just changed over, and looks
 * for its two chosen ones among them, one of each half. */
static void raise_flags(uint32_t *watching, uint32_t changed)
{
    uint32_t r = *watching;

    if (r & BIT(4) && changed >> (r & 15) & 1)
        *watching |= BIT(16);
    if (r & BIT(12) && changed >> (16 + (r >> 8 & 15)) & 1)
        *watching |= BIT(17);
}

/* Marks emptied here are nobody's message: no event. */
static void clear_marks(struct controller *c)
{
    c->marks = 0;
}

/* The write right goes with the last word. */
static void clear_to_pci(struct controller *c)
{
    c->to_pci.fill = 0;
}

/* The read right would live on in an empty FIFO. */
static void clear_to_addon(struct controller *c)
{
    c->to_addon.fill = c->read_right = 0;
}

static void mcsr_write(struct controller *c, uint32_t data, uint32_t mask)
{
    uint32_t ones = data & mask;

    c->mcsr = merge(c->mcsr, data, mask & MCSR_KEPT);
    if (ones & BIT(27))
        clear_marks(c);
    if (ones & BIT(26))
        clear_to_pci(c);
    if (ones & BIT(25))
        clear_to_addon(c);
}

/* Bits 26 and 25 stand for the other FIFO each than in MCSR. */
static void agcsts_write(struct controller *c, uint32_t data, uint32_t mask)
{
    uint32_t pulses = data & mask;

    if (pulses & BIT(27))
        clear_marks(c);
    if (pulses & BIT(26))
        clear_to_addon(c);
    if (pulses & BIT(25))
        clear_to_pci(c);
}

/* The status bits of the enabled bytes of a mailbox. */
static uint32_t marks_of(uint32_t place, uint32_t enables)
{
    return enables << (4 * place);
}

/* A read by the side that doesn't own the mailbox. */
static void mail_fetch(struct controller *c, uint32_t *watching,
                       uint32_t place, uint32_t enables)
{
    uint32_t emptied = c->marks & marks_of(place, enables);

    c->marks &= ~emptied;
    raise_flags(watching, emptied);
}

/* A write by its owner. */
static void mail_store(struct controller *c, uint32_t *watching,
                       uint32_t place, uint32_t enables, uint32_t data)
{
    uint32_t filled = marks_of(place, enables) & ~c->marks;

    c->mail[place] = merge(c->mail[place], data, enabled_bits[enables]);
    c->marks |= marks_of(place, enables);
    raise_flags(watching, filled);
}

/* By the driver, who may take the last word of a burst. */
static uint32_t port_take(struct controller *c)
{
    uint32_t front = fifo_take(&c->to_pci);

    end_rights(c);
    return front;
}

static uint32_t pci_read(struct controller *c, uint32_t place,
                         uint32_t enables)
{
    switch (place) {
    case FIFO_PORT:     return port_take(c);
    case WRITE_ADDRESS: return c->write_address;
    case WRITE_COUNT:   return c->write_count;
    case READ_ADDRESS:  return c->read_address;
    case READ_COUNT:    return c->read_count;
    case MAIL_STATUS:   return c->marks;
    case INTCSR:        return intcsr_read(c);
    case MCSR:          return mcsr_read(c);
    default:
        if (place >= 4)
            mail_fetch(c, &c->aint, place, enables);
        return c->mail[place];
    }
}

static void pci_write(struct controller *c, uint32_t place,
                      uint32_t enables, uint32_t data)
{
    uint32_t mask = enabled_bits[enables];
    uint32_t *r;

    switch (place) {
    case FIFO_PORT:
        fifo_put(&c->to_addon, data);
        break;
    case WRITE_ADDRESS:
    case READ_ADDRESS:
        r = place == WRITE_ADDRESS ? &c->write_address : &c->read_address;
        *r = merge(*r, data, mask & ADDRESS_KEPT);
        break;
    case WRITE_COUNT:
    case READ_COUNT:
        r = place == WRITE_COUNT ? &c->write_count : &c->read_count;
        *r = merge(*r, data, mask & COUNT_KEPT);
        break;
    case INTCSR:
        intcsr_write(c, data, mask);
        break;
    case MCSR:
        mcsr_write(c, data, mask);
        break;
    default:
        mail_store(c, &c->aint, place, enables, data);
    }
}

static uint32_t addon_read(struct controller *c, uint32_t place,
                           uint32_t enables)
{
    switch (place) {
    case FIFO_PORT:   return fifo_take(&c->to_addon);
    case MAIL_STATUS: return c->marks;
    case AINT:        return aint_read(c);
    case AGCSTS:      return agcsts_read(c);
    default:
        if (place < 4)
            mail_fetch(c, &c->intcsr, place, enables);
        return c->mail[place];
    }
}

static void addon_write(struct controller *c, uint32_t place,
                        uint32_t enables, uint32_t data)
{
    uint32_t mask = enabled_bits[enables];

    switch (place) {
    case FIFO_PORT:
        fifo_put(&c->to_pci, data);
        break;
    case AINT:
        aint_write(c, data, mask);
        break;
    case AGCSTS:
        agcsts_write(c, data, mask);
        break;
    default:
        mail_store(c, &c->intcsr, place, enables, data);
    }
}

/* Code 8: the port is written when full or read when empty. */
static bool port_blocked(const struct controller *c, uint32_t kind)
{
    switch (kind) {
    case PCI_READ:   return c->to_pci.fill == 0;
    case PCI_WRITE:  return c->to_addon.fill == FIFO_WORDS;
    case ADDON_READ: return c->to_addon.fill == 0;
    default:         return c->to_pci.fill == FIFO_WORDS;
    }
}

/* The lowest code of a read or write, from code 4 on. */
static uint32_t access_code(const struct controller *c, const struct step *s)
{
    bool pci = s->kind == PCI_READ || s->kind == PCI_WRITE;
    bool write = s->kind == PCI_WRITE || s->kind == ADDON_WRITE;
    uint32_t table = pci ? PCI_TABLE : ADDON_TABLE;
    uint32_t read_only = pci ? PCI_READ_ONLY : ADDON_READ_ONLY;
    uint32_t place = s->offset / 4;

    if (s->offset % 4 != 0 || place >= REGISTERS || !(table >> place & 1))
        return UNKNOWN_OFFSET;
    if (s->enables > 15)
        return BAD_ENABLES;
    if (place == FIFO_PORT && s->enables != 15)
        return PART_FIFO_ACCESS;
    if (write && read_only >> place & 1)
        return READ_ONLY_REGISTER;
    if (place == FIFO_PORT && port_blocked(c, s->kind))
        return FIFO_FULL_OR_EMPTY;
    return DONE;
}

/* A read shows the whole register, whatever the enables. MCSR and AGCSTS
 * change marks too, and don't show it. */
static struct answer do_access(struct controller *c, const struct step *s)
{
    uint32_t code = access_code(c, s);
    uint32_t place = s->offset / 4;
    uint32_t before = c->marks;
    uint32_t data = 0;
    struct answer a;

    if (code != DONE)
        return answer_of(c, code, 0);
    switch (s->kind) {
    case PCI_READ:
        data = pci_read(c, place, s->enables);
        break;
    case PCI_WRITE:
        pci_write(c, place, s->enables, s->data);
        end_rights(c);
        break;
    case ADDON_READ:
        data = addon_read(c, place, s->enables);
        break;
    default:
        addon_write(c, place, s->enables, s->data);
        end_rights(c);
    }
    a = answer_of(c, DONE, data);
    if (place < MAILBOXES)
        a.changed = before ^ c->marks;
    return a;
}

/* The place of the word in the window; the subtraction is modulo 2^32. */
static uint32_t word_place(const struct window *w, uint32_t address)
{
    return (address - w->start) / 4;
}

/* A right stands only where a word is held, or there is room for one. */
static bool cycle_ready(const struct controller *c, bool write)
{
    uint32_t held = c->to_pci.fill, room = FIFO_WORDS - c->to_addon.fill;

    if (write)
        return c->write_right || held >= (c->mcsr & BIT(9) ? 4 : 1);
    return c->read_right || room >= (c->mcsr & BIT(13) ? 4 : 1);
}

/* The lowest code of a cycle, from code 9 on. */
static uint32_t cycle_code(const struct controller *c,
                           const struct window *w, bool write)
{
    uint32_t address = write ? c->write_address : c->read_address;
    uint32_t count = write ? c->write_count : c->read_count;

    if (!(c->mcsr & (write ? BIT(10) : BIT(14))))
        return TRANSFER_OFF;
    if (count == 0)
        return COUNT_IS_ZERO;
    if (aborted(c))
        return ABORT_STANDS;
    if (!cycle_ready(c, write))
        return FIFO_NOT_READY;
    if (word_place(w, address) >= w->count)
        return NO_MEMORY_THERE;
    return DONE;
}

/* A done cycle under MCSR 9, or 13, found four or had the right already;
 * what ends it is looked at after the step. */
static void earn_right(struct controller *c, bool write)
{
    if (write)
        c->write_right = c->mcsr >> 9 & 1;
    else
        c->read_right = c->mcsr >> 13 & 1;
}

static struct answer do_cycle(struct controller *c, const struct window *w,
                              bool write)
{
    uint32_t code = cycle_code(c, w, write);
    uint32_t *address = write ? &c->write_address : &c->read_address;
    uint32_t *count = write ? &c->write_count : &c->read_count;
    uint32_t bytes = *count < 4 ? *count : 4;
    struct answer a = { .code = code };

    if (code == DONE) {
        uint32_t *word = &w->words[word_place(w, *address)];

        a.address = *address;
        a.enables = BIT(bytes) - 1;
        if (write) {
            a.data = fifo_take(&c->to_pci);
            *word = merge(*word, a.data, enabled_bits[a.enables]);
        } else {
            a.data = *word & enabled_bits[a.enables];
            fifo_put(&c->to_addon, a.data);
        }
        *count -= bytes;
        *address += 4;
        earn_right(c, write);
        if (*count == 0) {
            c->intcsr |= write ? BIT(18) : BIT(19);
            c->aint |= write ? BIT(18) : BIT(19);
        }
    } else if (code == NO_MEMORY_THERE) {
        a.address = *address;
        c->intcsr |= BIT(20);
        c->aint |= BIT(21);
    }
    end_rights(c);
    a.line = model_line(c);
    a.addon_line = model_addon_line(c);
    return a;
}

struct answer model_step(struct controller *c, const struct window *w,
                         const struct step *s)
{
    if (!state_in_form(c))
        return (struct answer){ .code = STATE_OUT_OF_FORM };
    if (!window_in_form(w))
        return answer_of(c, WINDOW_OUT_OF_FORM, 0);
    switch (s->kind) {
    case PCI_READ:
    case PCI_WRITE:
    case ADDON_READ:
    case ADDON_WRITE:
        return do_access(c, s);
    case WRITE_CYCLE:
        return do_cycle(c, w, true);
    case READ_CYCLE:
        return do_cycle(c, w, false);
    case CHIP_RESET:
        model_reset(c);
        return answer_of(c, DONE, 0);
    default:
        return answer_of(c, UNKNOWN_STEP, 0);
    }
}
