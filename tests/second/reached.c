/* reached.c: measures what a run from reset has reached.
 * Part of the second program, written from documents 01 and 02 alone.
 *
 *   reached FRAMES LOG    exit status 0 if all was reached, 1 if not,
 *                         2 if the log doesn't fit the frames
 *
 * The first line of the frames is the set of labels, and is not answered;
 * each line of the log has its code's label of that set. It goes by the two
 * texts alone, not by the model's steps. */
#define _POSIX_C_SOURCE 200809L
#include "model.h"

#include <inttypes.h>
#include <stdio.h>
#include <stdlib.h>
#include <string.h>

enum {
    KINDS = CHIP_RESET + 2,     /* the last one: every unknown kind */
    FRAME_DIGITS = 13, ANSWER_DIGITS = 21, LABEL_AT = 22, LINE_START = 41
};
enum { PCI, ADDON, SIDES };
enum { READ, WRITTEN, REFUSED, USES };
enum { OUTGOING, INCOMING, HALVES };
enum { RAISED, NO_CHANGE, BY_ITSELF, EVENT_OFF, CLEARED, AT_RESET, CASES };
enum { MARKS, TO_ADDON, TO_PCI, PARTS };
enum { OUT_OF_FIFO, INTO_FIFO, WAYS };      /* of a cycle: kinds 4 and 5 */
enum { USED_UP, USED_UP_OFF, WRITTEN_ZERO, ENDS };

/* How the right to a burst can end, and what may happen beside it. */
enum {
    LAST_WORD, LAST_PORT, COUNT_USED, COUNT_ZERO, FOUR_OFF, CYCLES_OFF,
    NO_MEMORY, OTHER_NO_MEMORY, CLEARED_BY_PCI, CLEARED_BY_ADDON,
    CLEARED_EMPTY, RESET, BURST_ENDS
};
enum {
    ADDRESS_WRITTEN, COUNT_LEFT, FOUR_LEFT, OTHER_CLEARED, CLEAR_SPARED,
    OTHER_ENDED, OTHER_EDGE, BESIDES
};
enum { FOUR = 4 };

/* The start of a line and its whole length. */
struct line {
    char start[LINE_START];
    uint64_t length;
};

/* One FIFO by its account of words put in and taken out. */
struct account {
    uint32_t fill;
    uint64_t full, empty;       /* how often it became so */
};

/* The mailboxes by their own account, as far as events go by it, and the
 * interrupt register of each side. */
struct mail_account {
    uint32_t word[MAILBOXES];
    uint32_t marks;
    uint32_t chosen[SIDES];     /* bits 15 to 0 as last written */
    uint32_t line[SIDES];       /* of the answer before */
};

/* The right of one way by its own account. For each end there is also the
 * right that would stand if that end were none: a cycle that is refused
 * while it stands was refused for that end. */
struct burst {
    bool right, without[BURST_ENDS];
    uint32_t beside;            /* one bit each, since it was earned */
    uint64_t earned, earned_by_four;
    uint64_t used[FOUR], refused[FOUR];     /* by the words, 1 to 3 */
    uint64_t ended[BURST_ENDS], kept[BESIDES];
};

struct reached {
    uint32_t set;
    uint64_t lines, broken;
    uint64_t pair[KINDS][CODES];
    uint64_t use[SIDES][REGISTERS][USES];
    uint64_t mail_read[16], mail_write[16];
    uint64_t part[SIDES][REGISTERS];    /* showing bytes not enabled */
    uint64_t none[SIDES][REGISTERS];    /* showing any with none enabled */
    uint64_t left_full[HALVES];         /* bytes not enabled of a fetch */
    uint64_t interrupt_set[SIDES][32];
    uint64_t status_set[SIDES][8], status_clear[SIDES][8];
    struct account to_addon, to_pci;
    struct mail_account mail;
    uint64_t event[SIDES][HALVES][CASES];
    uint32_t count[WAYS];               /* by their own account */
    uint64_t end[SIDES][WAYS][ENDS];
    uint64_t cleared[SIDES][PARTS];     /* while it held something */
    uint64_t spared[SIDES][PARTS];      /* the same without byte 3 */
    bool addon_abort;                   /* AINT's, by its own account */
    uint32_t mcsr;                      /* bits 15 to 8 as last written */
    struct burst burst[WAYS];
    uint64_t cycles_beside_abort, line_pair[4];
    unsigned missed;
};

static const char *const kind_name[KINDS] = {
    "PCI read", "PCI write", "Add-On read", "Add-On write", "write cycle",
    "read cycle", "chip reset", "unknown"
};

/* One bit for each code that frames can get from each kind. */
static const uint32_t possible[KINDS] = {
    0x0151, 0x01D1, 0x0151, 0x01D1, 0x3E01, 0x3E01, 0x0001, 0x0008
};

static const char *const half_name[HALVES] = { "outgoing", "incoming" };
static const char *const side_name[SIDES] = { "PCI", "Add-On" };

/* What happened to the byte that a side has chosen of a half, and whether
 * that side's line rose. */
static const char *const event_name[CASES] = {
    "the other side changed its mark, the line rose",
    "the other side left its mark, no rise",
    "the side itself changed its mark, no rise",
    "the other side changed its mark with the event off",
    "full at a clear, no rise",
    "full at a reset"
};

static const char *const way_name[WAYS] = { "write", "read" };

/* How a count came to zero, and what that side's line did. */
static const char *const end_name[ENDS] = {
    "used up by a cycle, the line rose",
    "used up by a cycle with the enable off, no rise",
    "written zero, no rise"
};

static const char *const burst_end_name[BURST_ENDS] = {
    "a cycle that left it no word, or no room", "the same by a port",
    "the count used up", "the count written zero", "MCSR 9, or 13, off",
    "its enable off", "no memory", "no memory for the other way",
    "its FIFO cleared by MCSR", "its FIFO cleared by AGCSTS",
    "its FIFO cleared while empty", "a reset"
};

static const char *const beside_name[BESIDES] = {
    "its address written", "a count written and left", "MCSR written with "
    "both bits", "the other FIFO cleared", "a clear without byte 3",
    "the other right ended", "its FIFO full, or empty, the other way"
};

static const char *const part_name[PARTS] = {
    "marks", "PCI-to-Add-On FIFO", "Add-On-to-PCI FIFO"
};

static const char *const lines_name[4] = {
    "neither line", "the Add-On line alone", "the PCI line alone",
    "both lines"
};

/* The bits of each side's interrupt and control registers that have to be
 * seen set, and those that must not. Nothing sets bit 21 of INTCSR. */
static const uint32_t interrupt_need[SIDES] = { 0x009FDF1F, 0x00AFDF1F };
static const uint32_t interrupt_zero[SIDES] = { 0xFF6020E0, 0xFF5020E0 };
static const uint32_t status_need[SIDES] = { 0xFF, 0x3F };
static const uint32_t control_zero[SIDES] = { 0xFFFF0800, 0xFFFFFFC0 };

/* The bit that clears each part, by the side that writes it. */
static const uint32_t clear_bit[SIDES][PARTS] = {
    [PCI] = { 1u << 27, 1u << 25, 1u << 26 },
    [ADDON] = { 1u << 27, 1u << 26, 1u << 25 }
};

static const uint32_t table_of[SIDES] = { PCI_TABLE, ADDON_TABLE };
static const uint32_t read_only_of[SIDES] = { PCI_READ_ONLY,
                                              ADDON_READ_ONLY };

/* ---- reading ---- */

/* The next line by the rule of document 01; false at the end. */
static bool next_line(FILE *f, struct line *l)
{
    int c = getc_unlocked(f);

    l->length = 0;
    if (c == EOF)
        return false;
    for (; c != '\n' && c != EOF; c = getc_unlocked(f)) {
        if (l->length < LINE_START)
            l->start[l->length] = (char)c;
        l->length++;
    }
    return true;
}

/* Reads n upper-case digits; false if one of them is none. */
static bool digits(const char *text, int n, uint32_t *number)
{
    static const char digit[] = "0123456789ABCDEF";
    uint32_t v = 0;

    for (int i = 0; i < n; i++) {
        const char *at = memchr(digit, text[i], 16);

        if (at == NULL)
            return false;
        v = v << 4 | (uint32_t)(at - digit);
    }
    *number = v;
    return true;
}

static bool parse_frame(const struct line *l, struct step *s)
{
    return l->length == FRAME_DIGITS
        && digits(l->start, 2, &s->kind)
        && digits(l->start + 2, 2, &s->offset)
        && digits(l->start + 4, 1, &s->enables)
        && digits(l->start + 5, 8, &s->data);
}

static bool parse_answer(const struct line *l, struct answer *a)
{
    return l->length > ANSWER_DIGITS && l->start[ANSWER_DIGITS] == ' '
        && digits(l->start, 2, &a->code)
        && digits(l->start + 2, 8, &a->address)
        && digits(l->start + 10, 8, &a->data)
        && digits(l->start + 18, 1, &a->enables)
        && digits(l->start + 19, 1, &a->line)
        && digits(l->start + 20, 1, &a->addon_line)
        && a->line <= 1 && a->addon_line <= 1 && a->code < CODES;
}

/* The first line: a set's number in two digits. */
static bool parse_set(const struct line *l, uint32_t *set)
{
    return l->length == 2 && digits(l->start, 2, set) && *set < SETS;
}

static bool is_label(const struct line *l, const char *label)
{
    size_t n = strlen(label);

    return l->length == LABEL_AT + n
        && memcmp(l->start + LABEL_AT, label, n) == 0;
}

/* ---- measuring ---- */

/* Sets a new fill; false if no FIFO can hold it. */
static bool set_fill(struct account *f, uint32_t fill)
{
    if (fill > FIFO_WORDS)
        return false;
    if (fill == FIFO_WORDS && f->fill != fill)
        f->full++;
    if (fill == 0 && f->fill != fill)
        f->empty++;
    f->fill = fill;
    return true;
}

static int side_of(const struct step *s)
{
    return s->kind <= PCI_WRITE ? PCI : ADDON;
}

/* Whether a done step writes this register of its side. */
static bool writes(const struct step *s, uint32_t place)
{
    return (s->kind == PCI_WRITE || s->kind == ADDON_WRITE)
        && s->offset == 4 * place;
}

/* Whether a done step has the bit that clears a part. */
static bool says_clear(const struct step *s, int part)
{
    return writes(s, MCSR) && s->data & clear_bit[side_of(s)][part];
}

static bool clears(const struct step *s, int part)
{
    return says_clear(s, part) && s->enables & 8;
}

static uint32_t held_in(const struct reached *r, int part)
{
    return part == MARKS ? r->mail.marks
         : part == TO_ADDON ? r->to_addon.fill : r->to_pci.fill;
}

/* Before the accounts take the step up. */
static void note_clears(struct reached *r, const struct step *s)
{
    for (int part = 0; part < PARTS; part++)
        if (says_clear(s, part) && held_in(r, part) != 0) {
            if (s->enables & 8)
                r->cleared[side_of(s)][part]++;
            else
                r->spared[side_of(s)][part]++;
        }
}

/* Keeps the account of both FIFOs for a step that was done. */
static bool keep_account(struct reached *r, const struct step *s)
{
    bool port = s->offset == 4 * FIFO_PORT;

    if (clears(s, TO_ADDON))
        set_fill(&r->to_addon, 0);
    if (clears(s, TO_PCI))
        set_fill(&r->to_pci, 0);
    switch (s->kind) {
    case PCI_READ:
        return !port || set_fill(&r->to_pci, r->to_pci.fill - 1);
    case PCI_WRITE:
        return !port || set_fill(&r->to_addon, r->to_addon.fill + 1);
    case ADDON_READ:
        return !port || set_fill(&r->to_addon, r->to_addon.fill - 1);
    case ADDON_WRITE:
        return !port || set_fill(&r->to_pci, r->to_pci.fill + 1);
    case WRITE_CYCLE:
        return set_fill(&r->to_pci, r->to_pci.fill - 1);
    case READ_CYCLE:
        return set_fill(&r->to_addon, r->to_addon.fill + 1);
    default:
        return set_fill(&r->to_addon, 0) && set_fill(&r->to_pci, 0);
    }
}

/* The mailbox bytes of a done access, as status bits. */
static uint32_t touched(const struct step *s)
{
    if (s->kind > ADDON_WRITE || s->offset >= 4 * MAILBOXES)
        return 0;
    return s->enables << s->offset;
}

/* The marks that a done step leaves. */
static uint32_t marks_after(const struct step *s, uint32_t marks)
{
    uint32_t bytes = touched(s);

    if (s->kind == CHIP_RESET || clears(s, MARKS))
        return 0;
    if (s->kind == PCI_WRITE || s->kind == ADDON_WRITE)
        return marks | bytes;
    return marks & ~(bytes & (s->kind == PCI_READ ? 0xFFFF0000 : 0xFFFF));
}

/* The low half of a side's interrupt register that a done step leaves. */
static uint32_t chosen_after(const struct step *s, int side, uint32_t bits)
{
    uint32_t mask = (s->enables & 1 ? 0xFFu : 0)
                  | (s->enables & 2 ? 0xFF00u : 0);

    if (s->kind == CHIP_RESET)
        return 0;
    if (writes(s, INTCSR) && side_of(s) == side)
        return (bits & ~mask) | (s->data & mask);
    return bits;
}

/* The data bits of the bytes that are enabled. */
static uint32_t bits_of(uint32_t enables)
{
    uint32_t mask = 0;

    for (int i = 0; i < 4; i++)
        if (enables >> i & 1)
            mask |= UINT32_C(0xFF) << 8 * i;
    return mask;
}

/* The count of one way that a done step leaves. */
static uint32_t count_after(const struct step *s, int way, uint32_t count)
{
    uint32_t place = way == OUT_OF_FIFO ? WRITE_COUNT : READ_COUNT;
    uint32_t mask = bits_of(s->enables);

    if (s->kind == CHIP_RESET)
        return 0;
    if (s->kind == WRITE_CYCLE + (uint32_t)way)
        return count - (count < 4 ? count : 4);
    if (s->kind != PCI_WRITE || s->offset != 4 * place)
        return count;
    return ((count & ~mask) | (s->data & mask)) & 0x03FFFFFF;
}

/* What a done step is to a count, as a side sees it; ENDS if nothing of
 * these. The line answered tells, as for events. */
static int end_case(const struct reached *r, const struct step *s,
                    const struct answer *a, int side, int way)
{
    uint32_t line = side == PCI ? a->line : a->addon_line;
    bool on = r->mail.chosen[side] >> (14 + way) & 1;

    if (r->mail.line[side] != 0 || s->kind == CHIP_RESET
        || r->count[way] == 0 || count_after(s, way, r->count[way]) != 0)
        return ENDS;
    if (s->kind == PCI_WRITE)
        return on && line == 0 ? WRITTEN_ZERO : ENDS;
    return line == (uint32_t)on ? (on ? USED_UP : USED_UP_OFF) : ENDS;
}

static void note_ends(struct reached *r, const struct step *s,
                      const struct answer *a)
{
    for (int way = 0; way < WAYS; way++) {
        for (int side = 0; side < SIDES; side++) {
            int found = end_case(r, s, a, side, way);

            if (found != ENDS)
                r->end[side][way][found]++;
        }
        r->count[way] = count_after(s, way, r->count[way]);
    }
}

/* ---- bursts ---- */

static int part_of(int way)
{
    return way == OUT_OF_FIFO ? TO_PCI : TO_ADDON;
}

static uint32_t fill_of(const struct reached *r, int way)
{
    return way == OUT_OF_FIFO ? r->to_pci.fill : r->to_addon.fill;
}

/* The words that a cycle of this way could move one after the other. */
static uint32_t words_of(int way, uint32_t fill)
{
    return way == OUT_OF_FIFO ? fill : FIFO_WORDS - fill;
}

static bool needs_four(const struct reached *r, int way)
{
    return r->mcsr >> (way == OUT_OF_FIFO ? 9 : 13) & 1;
}

/* MCSR 9 and 10, or 13 and 14. */
static uint32_t lane_bits(int way)
{
    return way == OUT_OF_FIFO ? 0x0600 : 0x6000;
}

static bool writes_mcsr(const struct step *s)
{
    return writes(s, MCSR) && side_of(s) == PCI;
}

/* Bits 15 to 8 of MCSR that a done step leaves. */
static uint32_t mcsr_after(const struct step *s, uint32_t bits)
{
    if (s->kind == CHIP_RESET)
        return 0;
    return writes_mcsr(s) && s->enables & 2 ? s->data & 0xFF00 : bits;
}

/* The fill of one way's FIFO that a done step leaves. */
static uint32_t fill_after(const struct step *s, int way, uint32_t fill)
{
    uint32_t put = way == OUT_OF_FIFO ? ADDON_WRITE : PCI_WRITE;
    uint32_t take = way == OUT_OF_FIFO ? PCI_READ : ADDON_READ;
    bool port = s->kind <= ADDON_WRITE && s->offset == 4 * FIFO_PORT;

    if (s->kind == CHIP_RESET || clears(s, part_of(way)))
        return 0;
    if (s->kind == WRITE_CYCLE + (uint32_t)way)
        return way == OUT_OF_FIFO ? fill - 1 : fill + 1;
    return port && s->kind == put ? fill + 1
         : port && s->kind == take ? fill - 1 : fill;
}

static uint32_t bit_if(bool is, int number)
{
    return is ? UINT32_C(1) << number : 0;
}

/* Which ends of a way's right a step is, one bit each: of done steps, and
 * of those that find no memory. */
static uint32_t ends_of(const struct reached *r, const struct step *s,
                        const struct answer *a, int way)
{
    uint32_t fill = fill_of(r, way), after = fill_after(s, way, fill);
    uint32_t off = r->mcsr & ~mcsr_after(s, r->mcsr) & lane_bits(way);
    bool own = s->kind == WRITE_CYCLE + (uint32_t)way;
    bool out = r->count[way] != 0 && count_after(s, way, r->count[way]) == 0;

    if (a->code == NO_MEMORY_THERE)
        return bit_if(true, own ? NO_MEMORY : OTHER_NO_MEMORY);
    if (s->kind == CHIP_RESET)
        return bit_if(true, RESET);
    if (clears(s, part_of(way)))
        return bit_if(fill == 0, CLEARED_EMPTY)
             | bit_if(fill != 0 && side_of(s) == PCI, CLEARED_BY_PCI)
             | bit_if(fill != 0 && side_of(s) == ADDON, CLEARED_BY_ADDON)
             | bit_if(off & 0x2200, FOUR_OFF)
             | bit_if(off & 0x4400, CYCLES_OFF);
    return bit_if(words_of(way, after) == 0 && after != fill,
                  own ? LAST_WORD : LAST_PORT)
         | bit_if(out, own ? COUNT_USED : COUNT_ZERO)
         | bit_if(off & 0x2200, FOUR_OFF)
         | bit_if(off & 0x4400, CYCLES_OFF);
}

/* What of the other things a done step is to a way, one bit each. */
static uint32_t besides_of(const struct reached *r, const struct step *s,
                           int way)
{
    uint32_t address = way == OUT_OF_FIFO ? WRITE_ADDRESS : READ_ADDRESS;
    uint32_t count = way == OUT_OF_FIFO ? WRITE_COUNT : READ_COUNT;
    uint32_t fill = fill_of(r, way), after = fill_after(s, way, fill);
    bool on_pci = s->kind == PCI_WRITE && s->enables != 0;
    bool spared = says_clear(s, part_of(way)) && !(s->enables & 8);
    bool edge = words_of(way, after) == FIFO_WORDS && after != fill;

    return bit_if(on_pci && s->offset == 4 * address, ADDRESS_WRITTEN)
         | bit_if(on_pci && s->offset == 4 * count, COUNT_LEFT)
         | bit_if(writes_mcsr(s) && s->enables & 2, FOUR_LEFT)
         | bit_if(clears(s, part_of(1 - way)), OTHER_CLEARED)
         | bit_if(spared, CLEAR_SPARED) | bit_if(edge, OTHER_EDGE);
}

/* Whether a cycle of this way is ready, by the accounts. */
static bool is_ready(const struct reached *r, int way)
{
    uint32_t words = words_of(way, fill_of(r, way));

    return words >= (needs_four(r, way) && !r->burst[way].right ? FOUR : 1);
}

/* Notes a cycle before the accounts take it up; false if code 12 is given
 * where the cycle is ready, or not given where it is not. */
static bool note_cycle(struct reached *r, const struct answer *a, int way)
{
    struct burst *b = &r->burst[way];
    uint32_t words = words_of(way, fill_of(r, way));

    if (a->code == FIFO_NOT_READY && words > 0 && words < FOUR) {
        b->refused[words]++;
        for (int i = 0; i < BURST_ENDS; i++)
            b->ended[i] += b->without[i];
    }
    if (a->code == DONE && needs_four(r, way) && words < FOUR) {
        b->used[words]++;
        for (int i = 0; i < BESIDES; i++)
            b->kept[i] += b->beside >> i & 1;
    }
    if (a->code < FIFO_NOT_READY && a->code != DONE)
        return true;
    return is_ready(r, way) == (a->code != FIFO_NOT_READY);
}

/* The right of one way after a step that was done or found no memory; true
 * if it has ended. */
static bool keep_right(struct reached *r, const struct step *s,
                       const struct answer *a, int way)
{
    struct burst *b = &r->burst[way];
    uint32_t ends = ends_of(r, s, a, way);
    bool cycle = a->code == DONE && s->kind == WRITE_CYCLE + (uint32_t)way;
    bool earns = cycle && needs_four(r, way)
              && words_of(way, fill_of(r, way)) >= FOUR;
    bool before = b->right;

    if (earns && !b->right) {
        b->earned++;
        b->earned_by_four += words_of(way, fill_of(r, way)) == FOUR;
        b->beside = 0;
    }
    b->right = (b->right || earns) && ends == 0;
    for (int i = 0; i < BURST_ENDS; i++)
        b->without[i] = (b->without[i] || earns)
                     && (ends & ~bit_if(true, i)) == 0;
    if (a->code == DONE && b->right)
        b->beside |= besides_of(r, s, way);
    return before && !b->right;
}

/* Keeps both rights; false if a cycle's readiness is not the accounts'. */
static bool note_bursts(struct reached *r, const struct step *s,
                        const struct answer *a)
{
    bool fits = true, ended[WAYS];

    if (s->kind == WRITE_CYCLE || s->kind == READ_CYCLE)
        fits = note_cycle(r, a, (int)(s->kind - WRITE_CYCLE));
    if (a->code != DONE && a->code != NO_MEMORY_THERE)
        return fits;
    for (int way = 0; way < WAYS; way++)
        ended[way] = keep_right(r, s, a, way);
    for (int way = 0; way < WAYS; way++)
        if (ended[1 - way] && r->burst[way].right)
            r->burst[way].beside |= bit_if(true, OTHER_ENDED);
    if (a->code == DONE)
        r->mcsr = mcsr_after(s, r->mcsr);
    return fits;
}

/* Whether the step is the access that a side waits for in a half: the
 * driver for the card's, the card for the driver's. */
static bool waited_for(const struct step *s, int side, int half)
{
    if (side == PCI)
        return s->kind == (half == OUTGOING ? ADDON_READ : ADDON_WRITE);
    return s->kind == (half == OUTGOING ? PCI_WRITE : PCI_READ);
}

/* What a done step is to the byte that a side has chosen of a half; CASES
 * if nothing of these. Where that side's line was 0 and the event on, its
 * flag was clear, and the line answered tells whether the step set it. */
static int event_case(const struct reached *r, const struct step *s,
                      const struct answer *a, int side, int half)
{
    uint32_t bits = r->mail.chosen[side] >> 8 * half;
    uint32_t chosen = UINT32_C(1) << (16 * half + (int)(bits & 15));
    uint32_t full = r->mail.marks & chosen;
    uint32_t line = side == PCI ? a->line : a->addon_line;
    bool changes = (marks_after(s, r->mail.marks) & chosen) != full;
    bool by_other = waited_for(s, side, half);
    bool on = bits >> 4 & 1;

    if (r->mail.line[side] != 0)
        return CASES;
    if (s->kind == CHIP_RESET)
        return on && full ? AT_RESET : CASES;
    if (clears(s, MARKS))
        return on && full && line == 0 ? CLEARED : CASES;
    if (!(touched(s) & chosen))
        return CASES;
    if (!on)
        return by_other && changes ? EVENT_OFF : CASES;
    if (by_other && changes)
        return line == 1 ? RAISED : CASES;
    if (line != 0 || by_other == changes)
        return CASES;
    return by_other ? NO_CHANGE : BY_ITSELF;
}

/* A done read of the status has to show the marks of the account. */
static bool shows_marks(const struct reached *r, const struct step *s,
                        const struct answer *a)
{
    return (s->kind != PCI_READ && s->kind != ADDON_READ)
        || s->offset != 4 * MAIL_STATUS || a->data == r->mail.marks;
}

/* One of a mailbox its whole word, whatever is enabled. */
static bool shows_mail(const struct reached *r, const struct step *s,
                       const struct answer *a)
{
    return (s->kind != PCI_READ && s->kind != ADDON_READ)
        || s->offset >= 4 * MAILBOXES
        || a->data == r->mail.word[s->offset / 4];
}

/* And one of a count the count of the account. */
static bool shows_count(const struct reached *r, const struct step *s,
                        const struct answer *a)
{
    if (s->kind != PCI_READ)
        return true;
    return s->offset == 4 * WRITE_COUNT ? a->data == r->count[OUT_OF_FIFO]
         : s->offset != 4 * READ_COUNT || a->data == r->count[INTO_FIFO];
}

static uint32_t three_bits(bool empty, bool four, bool full)
{
    return (uint32_t)empty << 2 | (uint32_t)four << 1 | (uint32_t)full;
}

/* The six bits of both control registers that show the fills. */
static uint32_t status_of(const struct reached *r, int side)
{
    uint32_t held = r->to_pci.fill, put = r->to_addon.fill;
    uint32_t in = three_bits(held == 0, held >= 4, held == FIFO_WORDS);
    uint32_t out = three_bits(put == 0, put <= 4, put == FIFO_WORDS);

    return side == PCI ? in << 3 | out : out << 3 | in;
}

/* A done read of a control register has to show the fills of the accounts,
 * and one of it or of an interrupt register no bit that there isn't. */
static bool shows_fills(const struct reached *r, const struct step *s,
                        const struct answer *a)
{
    if (s->kind != PCI_READ && s->kind != ADDON_READ)
        return true;
    if (s->offset == 4 * INTCSR)
        return !(a->data & interrupt_zero[side_of(s)]);
    return s->offset != 4 * MCSR
        || (!(a->data & control_zero[side_of(s)])
            && (a->data & 0x3F) == status_of(r, side_of(s)));
}

static void keep_mail(struct reached *r, const struct step *s)
{
    uint32_t mask = bits_of(s->enables);
    uint32_t *word = &r->mail.word[s->offset / 4 % MAILBOXES];

    if (s->kind == CHIP_RESET)
        memset(r->mail.word, 0, sizeof r->mail.word);
    if ((s->kind == PCI_WRITE || s->kind == ADDON_WRITE)
        && s->offset < 4 * MAILBOXES)
        *word = (*word & ~mask) | (s->data & mask);
}

static void note_events(struct reached *r, const struct step *s,
                        const struct answer *a)
{
    for (int side = 0; side < SIDES; side++)
        for (int half = 0; half < HALVES; half++) {
            int found = event_case(r, s, a, side, half);

            if (found != CASES)
                r->event[side][half][found]++;
        }
    r->mail.marks = marks_after(s, r->mail.marks);
    for (int side = 0; side < SIDES; side++)
        r->mail.chosen[side] = chosen_after(s, side, r->mail.chosen[side]);
}

/* AINT's abort bit: code 13 sets it, the card or a reset clears it. Cycles
 * are done beside it. While it stands the Add-On line is 1; false if not. */
static bool note_abort(struct reached *r, const struct step *s,
                       const struct answer *a)
{
    bool cycle = s->kind == WRITE_CYCLE || s->kind == READ_CYCLE;

    if (r->addon_abort && cycle && a->code == DONE)
        r->cycles_beside_abort++;
    if (a->code == NO_MEMORY_THERE)
        r->addon_abort = true;
    if (a->code == DONE
        && (s->kind == CHIP_RESET
            || (writes(s, AINT) && side_of(s) == ADDON
                && s->enables & 4 && s->data & 0x00200000)))
        r->addon_abort = false;
    r->line_pair[a->line << 1 | a->addon_line]++;
    return !r->addon_abort || a->addon_line == 1;
}

/* The bits of the interrupt and control registers that a read has shown. */
static void note_bits(struct reached *r, int side, uint32_t place,
                      uint32_t data)
{
    if (place == INTCSR)
        for (int i = 0; i < 32; i++)
            r->interrupt_set[side][i] += data >> i & 1;
    if (place == MCSR)
        for (int i = 0; i < 8; i++) {
            r->status_set[side][i] += data >> i & 1;
            r->status_clear[side][i] += ~data >> i & 1;
        }
}

/* A done read that leaves out bytes, and shows something there. A fetch
 * leaves their marks: the status has to show that later. */
static void note_part(struct reached *r, const struct step *s,
                      const struct answer *a)
{
    int side = side_of(s), half = s->offset < 0x10 ? OUTGOING : INCOMING;
    uint32_t place = s->offset / 4;
    uint32_t left = place < MAILBOXES
                  ? r->mail.marks & (15 & ~s->enables) << s->offset : 0;

    if (a->data & ~bits_of(s->enables))
        (s->enables == 0 ? r->none : r->part)[side][place]++;
    if (side == (half == OUTGOING ? ADDON : PCI) && s->enables != 0)
        r->left_full[half] += left != 0;
}

/* A read or write that was done, or a write refused as read-only. */
static void note_access(struct reached *r, const struct step *s,
                        const struct answer *a)
{
    int side = side_of(s);
    bool write = s->kind == PCI_WRITE || s->kind == ADDON_WRITE;
    uint32_t place = s->offset / 4;

    if (place >= REGISTERS || s->offset % 4 != 0)
        return;
    if (a->code == READ_ONLY_REGISTER)
        r->use[side][place][REFUSED]++;
    if (a->code != DONE)
        return;
    r->use[side][place][write ? WRITTEN : READ]++;
    if (place < MAILBOXES && write)
        r->mail_write[s->enables]++;
    else if (place < MAILBOXES)
        r->mail_read[s->enables]++;
    if (!write) {
        note_bits(r, side, place, a->data);
        note_part(r, s, a);
    }
}

/* One frame line with its log line; false if they don't fit. */
static bool measure(struct reached *r, const struct line *frame,
                    const struct line *log)
{
    struct step s = { 0 };
    struct answer a = { 0 };
    bool good = parse_frame(frame, &s);
    uint32_t kind = s.kind < KINDS ? s.kind : KINDS - 1;

    r->lines++;
    if (!parse_answer(log, &a) || good != (a.code != NOT_A_FRAME_LINE)
        || !is_label(log, model_label[r->set][a.code]))
        return false;
    if (!good) {
        r->broken++;
        return a.line == r->mail.line[PCI]
            && a.addon_line == r->mail.line[ADDON];
    }
    if (!(possible[kind] >> a.code & 1))
        return false;
    r->pair[kind][a.code]++;
    if (s.kind <= ADDON_WRITE)
        note_access(r, &s, &a);
    if (!note_bursts(r, &s, &a))
        return false;
    if (a.code == DONE) {
        note_clears(r, &s);
        note_ends(r, &s, &a);
        note_events(r, &s, &a);
        keep_mail(r, &s);
    }
    r->mail.line[PCI] = a.line;
    r->mail.line[ADDON] = a.addon_line;
    return note_abort(r, &s, &a)
        && (a.code != DONE
            || (keep_account(r, &s) && shows_marks(r, &s, &a)
                && shows_mail(r, &s, &a) && shows_fills(r, &s, &a)
                && shows_count(r, &s, &a)));
}

static bool measure_files(struct reached *r, FILE *frames, FILE *log)
{
    struct line frame, answer;

    if (!next_line(frames, &frame) || !parse_set(&frame, &r->set))
        return false;
    while (next_line(frames, &frame))
        if (!next_line(log, &answer) || !measure(r, &frame, &answer))
            return false;
    r->lines++;
    return !next_line(log, &answer);
}

/* ---- the table ---- */

static void print_pairs(const struct reached *r)
{
    printf("set %02" PRIX32 "\n", r->set);
    puts("answers of each kind, as code:times");
    for (int k = 0; k < KINDS; k++) {
        printf("  %-12s", kind_name[k]);
        for (int code = 0; code < CODES; code++)
            if (possible[k] >> code & 1)
                printf(" %d:%" PRIu64, code, r->pair[k][code]);
        putchar('\n');
    }
    printf("  %-12s %d:%" PRIu64 "\n", "no frame", NOT_A_FRAME_LINE,
           r->broken);
}

static void print_registers(const struct reached *r)
{
    puts("registers: read, written, write refused as read-only");
    for (int side = 0; side < SIDES; side++)
        for (int i = 0; i < REGISTERS; i++)
            if (table_of[side] >> i & 1)
                printf("  %-6s %02X %" PRIu64 " %" PRIu64 " %" PRIu64 "\n",
                       side_name[side], 4 * i, r->use[side][i][READ],
                       r->use[side][i][WRITTEN],
                       r->use[side][i][REFUSED]);
}

static void print_parts(const struct reached *r)
{
    puts("reads showing bytes not enabled: with some enabled, with none");
    for (int side = 0; side < SIDES; side++)
        for (int i = 0; i < REGISTERS; i++)
            if (table_of[side] >> i & 1 && i != FIFO_PORT)
                printf("  %-6s %02X %" PRIu64 " %" PRIu64 "\n",
                       side_name[side], 4 * i, r->part[side][i],
                       r->none[side][i]);
    for (int half = 0; half < HALVES; half++)
        printf("fetches of %s bytes that left others full %" PRIu64 "\n",
               half_name[half], r->left_full[half]);
}

static void print_events(const struct reached *r)
{
    puts("the byte that each side has chosen of each half");
    for (int side = 0; side < SIDES; side++)
        for (int half = 0; half < HALVES; half++)
            for (int i = 0; i < CASES; i++)
                printf("  %s, %s: %s %" PRIu64 "\n", side_name[side],
                       half_name[half], event_name[i],
                       r->event[side][half][i]);
}

static void print_ends(const struct reached *r)
{
    puts("the counts, as each side sees them");
    for (int side = 0; side < SIDES; side++)
        for (int way = 0; way < WAYS; way++)
            for (int i = 0; i < ENDS; i++)
                printf("  %s, %s count: %s %" PRIu64 "\n",
                       side_name[side], way_name[way], end_name[i],
                       r->end[side][way][i]);
}

static void print_bits(const struct reached *r)
{
    puts("interrupt and control registers: bits seen set");
    for (int side = 0; side < SIDES; side++)
        for (int i = 0; i < 24; i++)
            if (interrupt_need[side] >> i & 1)
                printf("  %s 38 bit %d %" PRIu64 "\n", side_name[side], i,
                       r->interrupt_set[side][i]);
    puts("status bits: seen 0, seen 1");
    for (int side = 0; side < SIDES; side++)
        for (int i = 0; i < 8; i++)
            printf("  %s 3C bit %d %" PRIu64 " %" PRIu64 "\n",
                   side_name[side], i, r->status_clear[side][i],
                   r->status_set[side][i]);
}

static void print_clears(const struct reached *r)
{
    puts("cleared while it held something: with byte 3, without it");
    for (int side = 0; side < SIDES; side++)
        for (int i = 0; i < PARTS; i++)
            printf("  %s: %s %" PRIu64 " %" PRIu64 "\n", side_name[side],
                   part_name[i], r->cleared[side][i], r->spared[side][i]);
    printf("cycles done beside AINT's abort bit %" PRIu64 "\n",
           r->cycles_beside_abort);
    for (int i = 0; i < 4; i++)
        printf("%s %" PRIu64 "\n", lines_name[i], r->line_pair[i]);
}

static void print_bursts(const struct reached *r)
{
    puts("bursts of each way");
    for (int way = 0; way < WAYS; way++) {
        const struct burst *b = &r->burst[way];

        printf("  %s: earned %" PRIu64 ", with exactly four %" PRIu64 "\n",
               way_name[way], b->earned, b->earned_by_four);
        for (int i = 1; i < FOUR; i++)
            printf("  %s with %d: by the right %" PRIu64 ", refused %" PRIu64
                   "\n", way_name[way], i, b->used[i], b->refused[i]);
        for (int i = 0; i < BURST_ENDS; i++)
            printf("  %s refused after %s %" PRIu64 "\n", way_name[way],
                   burst_end_name[i], b->ended[i]);
        for (int i = 0; i < BESIDES; i++)
            printf("  %s goes on after %s %" PRIu64 "\n", way_name[way],
                   beside_name[i], b->kept[i]);
    }
}

static void print_rest(const struct reached *r)
{
    printf("PCI-to-Add-On FIFO: full %" PRIu64 ", empty again %" PRIu64
           "\n", r->to_addon.full, r->to_addon.empty);
    printf("Add-On-to-PCI FIFO: full %" PRIu64 ", empty again %" PRIu64
           "\n", r->to_pci.full, r->to_pci.empty);
    puts("mailbox accesses by enables: read, written");
    for (int i = 0; i < 16; i++)
        printf("  %X %" PRIu64 " %" PRIu64 "\n", (unsigned)i,
               r->mail_read[i], r->mail_write[i]);
}

/* ---- what is missing ---- */

/* Names a thing that was never reached. */
static void need(struct reached *r, uint64_t times, const char *what,
                 const char *of, int number)
{
    if (times > 0)
        return;
    printf("%s%s %s %d", r->missed == 0 ? "missed: " : ", ", what, of,
           number);
    r->missed++;
}

static void need_register(struct reached *r, int side, int place, int use)
{
    static const char *const done[USES] = { "read", "written",
                                            "refused as read-only" };

    if (r->use[side][place][use] > 0)
        return;
    printf("%s%s offset %02X %s", r->missed == 0 ? "missed: " : ", ",
           side_name[side], 4 * (unsigned)place, done[use]);
    r->missed++;
}

static void need_pairs(struct reached *r)
{
    for (int k = 0; k < KINDS; k++)
        for (int code = 0; code < CODES; code++)
            if (possible[k] >> code & 1)
                need(r, r->pair[k][code], kind_name[k], "code", code);
    need(r, r->broken, "no frame", "code", NOT_A_FRAME_LINE);
}

static void need_registers(struct reached *r)
{
    for (int side = 0; side < SIDES; side++)
        for (int i = 0; i < REGISTERS; i++) {
            bool fixed = read_only_of[side] >> i & 1;

            if (!(table_of[side] >> i & 1))
                continue;
            need_register(r, side, i, READ);
            need_register(r, side, i, fixed ? REFUSED : WRITTEN);
        }
}

static void need_parts(struct reached *r)
{
    for (int side = 0; side < SIDES; side++)
        for (int i = 0; i < REGISTERS; i++)
            if (table_of[side] >> i & 1 && i != FIFO_PORT) {
                need(r, r->part[side][i], side_name[side],
                     "read in part, place", i);
                need(r, r->none[side][i], side_name[side],
                     "read with no enables, place", i);
            }
    for (int half = 0; half < HALVES; half++)
        need(r, r->left_full[half], half_name[half],
             "bytes left full by a fetch, half", half);
}

static void need_events(struct reached *r)
{
    for (int side = 0; side < SIDES; side++)
        for (int half = 0; half < HALVES; half++)
            for (int i = 0; i < CASES; i++)
                if (r->event[side][half][i] == 0) {
                    printf("%s%s, chosen %s byte: %s",
                           r->missed == 0 ? "missed: " : ", ",
                           side_name[side], half_name[half], event_name[i]);
                    r->missed++;
                }
}

static void need_ends(struct reached *r)
{
    for (int side = 0; side < SIDES; side++)
        for (int way = 0; way < WAYS; way++)
            for (int i = 0; i < ENDS; i++)
                if (r->end[side][way][i] == 0) {
                    printf("%s%s, %s count: %s",
                           r->missed == 0 ? "missed: " : ", ",
                           side_name[side], way_name[way], end_name[i]);
                    r->missed++;
                }
}

static void need_bits(struct reached *r)
{
    for (int side = 0; side < SIDES; side++) {
        for (int i = 0; i < 32; i++)
            if (interrupt_need[side] >> i & 1)
                need(r, r->interrupt_set[side][i], side_name[side],
                     "38 set, bit", i);
        for (int i = 0; i < 8; i++)
            if (status_need[side] >> i & 1) {
                need(r, r->status_clear[side][i], side_name[side],
                     "3C clear, bit", i);
                need(r, r->status_set[side][i], side_name[side],
                     "3C set, bit", i);
            }
    }
}

static void need_clears(struct reached *r)
{
    for (int side = 0; side < SIDES; side++)
        for (int i = 0; i < PARTS; i++) {
            need(r, r->cleared[side][i], part_name[i], "cleared by side",
                 side);
            need(r, r->spared[side][i], part_name[i], "spared by side",
                 side);
        }
    need(r, r->cycles_beside_abort, "cycle done beside", "AINT bit", 21);
    for (int i = 0; i < 4; i++)
        need(r, r->line_pair[i], lines_name[i], "up, number", i);
}

/* The write right never stands over an empty FIFO, so no clear of one can
 * end it. */
static void need_bursts(struct reached *r)
{
    for (int way = 0; way < WAYS; way++) {
        const struct burst *b = &r->burst[way];

        need(r, b->earned_by_four, way_name[way], "right earned with", FOUR);
        for (int i = 1; i < FOUR; i++) {
            need(r, b->used[i], way_name[way], "right used with", i);
            need(r, b->refused[i], way_name[way], "cycle refused with", i);
        }
        for (int i = 0; i < BURST_ENDS; i++)
            if (way != OUT_OF_FIFO || i != CLEARED_EMPTY)
                need(r, b->ended[i], way_name[way], burst_end_name[i], i);
        for (int i = 0; i < BESIDES; i++)
            need(r, b->kept[i], way_name[way], beside_name[i], i);
    }
}

static void need_rest(struct reached *r)
{
    need(r, r->to_addon.full, "PCI-to-Add-On FIFO", "fill", 8);
    need(r, r->to_addon.empty, "PCI-to-Add-On FIFO", "fill again", 0);
    need(r, r->to_pci.full, "Add-On-to-PCI FIFO", "fill", 8);
    need(r, r->to_pci.empty, "Add-On-to-PCI FIFO", "fill again", 0);
    for (int i = 0; i < 16; i++) {
        need(r, r->mail_read[i], "mailbox read", "enables", i);
        need(r, r->mail_write[i], "mailbox write", "enables", i);
    }
}

/* ---- the program ---- */

static FILE *open_file(const char *name)
{
    FILE *f = fopen(name, "rb");

    if (f == NULL) {
        perror(name);
        exit(2);
    }
    return f;
}

int main(int argc, char **argv)
{
    static struct reached r;
    FILE *frames, *log;

    if (argc != 3) {
        fputs("usage: reached FRAMES LOG\n", stderr);
        return 2;
    }
    frames = open_file(argv[1]);
    log = open_file(argv[2]);
    if (!measure_files(&r, frames, log)) {
        printf("line %" PRIu64 ": the log doesn't fit the frames\n",
               r.lines);
        return 2;
    }
    fclose(frames);
    fclose(log);
    print_pairs(&r);
    print_registers(&r);
    print_parts(&r);
    print_events(&r);
    print_ends(&r);
    print_bits(&r);
    print_clears(&r);
    print_bursts(&r);
    print_rest(&r);
    need_pairs(&r);
    need_registers(&r);
    need_parts(&r);
    need_events(&r);
    need_ends(&r);
    need_bits(&r);
    need_clears(&r);
    need_bursts(&r);
    need_rest(&r);
    puts(r.missed == 0 ? "reached: all" : "");
    return r.missed == 0 ? 0 : 1;
}
