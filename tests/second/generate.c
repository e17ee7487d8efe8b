/* generate.c: frames for testing, the same for the same seed.
 * Part of the second program, written from documents 01 and 02 alone.
 *
 *   generate PROFILE SEED COUNT [SET] > frames
 *
 * COUNT is the number of lines after the set line. SET is 0 or 1; if it is
 * not given, seeds and profiles take turns, so that a round of all profiles
 * has both sets and the next seed's round has them the other way round. The
 * profile "sets" begins with other first lines, most of them of no set, and
 * some of its texts end there.
 *
 * The generator follows the run with the model, so that it knows the state
 * reached and can steer into full, empty, aborted and finished states. */
#include "model.h"

#include <inttypes.h>
#include <stdio.h>
#include <stdlib.h>
#include <string.h>

#define UPPER "%02X%02X%X%08X"
#define LOWER "%02x%02x%x%08x"

enum { MEMORY_WORDS = 4096, LONG_LINE_MAX = 100000 };

struct generator {
    uint64_t random;            /* state of the random numbers */
    uint64_t left;              /* lines still to be written */
    uint64_t turn;              /* for walks through all of a set */
    bool open_end;              /* the last line has no LF */
    struct controller chip;
    struct window window;
    uint32_t memory[MEMORY_WORDS];
};

typedef void move(struct generator *g);

/* ---- random numbers: splitmix64 ----
 * No argument list or expression draws twice without an order between the
 * draws, so that every compiler gives the same frames. */

static uint64_t random64(struct generator *g)
{
    uint64_t z = g->random += UINT64_C(0x9E3779B97F4A7C15);

    z = (z ^ z >> 30) * UINT64_C(0xBF58476D1CE4E5B9);
    z = (z ^ z >> 27) * UINT64_C(0x94D049BB133111EB);
    return z ^ z >> 31;
}

static uint32_t random32(struct generator *g)
{
    return (uint32_t)(random64(g) >> 32);
}

/* 0 to n - 1 */
static uint32_t below(struct generator *g, uint32_t n)
{
    return (uint32_t)((uint64_t)random32(g) * n >> 32);
}

static bool one_in(struct generator *g, uint32_t n)
{
    return below(g, n) == 0;
}

/* Data of several sorts: random, single bits, all but one bit, extremes. */
static uint32_t some_data(struct generator *g)
{
    switch (below(g, 6)) {
    case 0:  return UINT32_C(1) << below(g, 32);
    case 1:  return ~(UINT32_C(1) << below(g, 32));
    case 2:  return one_in(g, 2) ? 0xFFFFFFFF : 0;
    default: return random32(g);
    }
}

/* Mostly 15, else any. */
static uint32_t some_enables(struct generator *g)
{
    return one_in(g, 3) ? below(g, 16) : 15;
}

/* ---- writing lines ---- */

/* Ends a line of n bytes; only the last one may go without LF. */
static void end_line(struct generator *g, size_t n)
{
    g->left--;
    if (g->left > 0 || !g->open_end || n == 0)
        putchar('\n');
}

/* Writes one frame and makes its step; nothing once COUNT is reached. */
static void frame(struct generator *g, uint32_t kind, uint32_t offset,
                  uint32_t enables, uint32_t data)
{
    struct step s = { kind, offset, enables, data };

    if (g->left == 0)
        return;
    printf(UPPER, (unsigned)kind, (unsigned)offset, (unsigned)enables,
           (unsigned)data);
    end_line(g, 13);
    model_step(&g->chip, &g->window, &s);
}

/* Writes a line that is no frame. */
static void raw_line(struct generator *g, const char *bytes, size_t n)
{
    if (g->left == 0)
        return;
    fwrite(bytes, 1, n, stdout);
    end_line(g, n);
}

/* A read; its data is ignored and so may be anything. */
static void read_frame(struct generator *g, uint32_t kind, uint32_t offset,
                       uint32_t enables)
{
    frame(g, kind, offset, enables, random32(g));
}

static void write_frame(struct generator *g, uint32_t kind, uint32_t offset,
                        uint32_t enables)
{
    frame(g, kind, offset, enables, some_data(g));
}

/* A cycle or reset; its other numbers are ignored and may be anything. */
static void plain_frame(struct generator *g, uint32_t kind)
{
    uint32_t offset = below(g, 256);
    uint32_t enables = below(g, 16);

    frame(g, kind, offset, enables, random32(g));
}

static void pci_read(struct generator *g, uint32_t place)
{
    read_frame(g, PCI_READ, 4 * place, some_enables(g));
}

static void pci_write(struct generator *g, uint32_t place, uint32_t data)
{
    frame(g, PCI_WRITE, 4 * place, 15, data);
}

/* A side's own interrupt register, or control register. */
static void own_read(struct generator *g, bool card, uint32_t place)
{
    frame(g, card ? ADDON_READ : PCI_READ, 4 * place, 15, 0);
}

static void own_write(struct generator *g, bool card, uint32_t place,
                      uint32_t enables, uint32_t data)
{
    frame(g, card ? ADDON_WRITE : PCI_WRITE, 4 * place, enables, data);
}

static uint32_t own_bits(const struct generator *g, bool card)
{
    return card ? g->chip.aint : g->chip.intcsr;
}

/* Reads every register that shows state without changing it. */
static void look(struct generator *g)
{
    for (uint32_t place = 0; place < 4; place++)
        frame(g, PCI_READ, 4 * place, 15, 0);
    for (uint32_t place = 4; place < 8; place++)
        frame(g, ADDON_READ, 4 * place, 15, 0);
    for (uint32_t place = WRITE_ADDRESS; place < REGISTERS; place++)
        frame(g, PCI_READ, 4 * place, 15, 0);
    for (uint32_t place = MAIL_STATUS; place < REGISTERS; place++)
        frame(g, ADDON_READ, 4 * place, 15, 0);
}

/* Reads all registers of both sides, with what that changes. */
static void read_everything(struct generator *g)
{
    for (uint32_t place = 0; place < REGISTERS; place++)
        pci_read(g, place);
    for (uint32_t place = 0; place < REGISTERS; place++)
        if (ADDON_TABLE >> place & 1)
            frame(g, ADDON_READ, 4 * place, some_enables(g), 0);
}

/* ---- registers ---- */

/* Walks through all registers of both sides with all enables. */
static void registers_move(struct generator *g)
{
    uint32_t turn = (uint32_t)(g->turn++ % (32 * 16));
    uint32_t place = turn % REGISTERS;
    bool pci = turn / REGISTERS % 2 == 0;
    uint32_t enables = turn / 32;

    if (!pci && !(ADDON_TABLE >> place & 1))
        pci = true;
    write_frame(g, pci ? PCI_WRITE : ADDON_WRITE, 4 * place, enables);
    pci_read(g, place);
    if (ADDON_TABLE >> place & 1)
        read_frame(g, ADDON_READ, 4 * place, below(g, 16));
    frame(g, pci ? PCI_READ : ADDON_READ, 4 * place, 15 - enables, 0);
    if (one_in(g, 8))
        look(g);
    if (one_in(g, 12))
        read_everything(g);
}

/* ---- mailboxes ---- */

static void mail_traffic(struct generator *g)
{
    uint32_t offset = 4 * below(g, 4);
    uint32_t enables = below(g, 16);
    bool stray = one_in(g, 12); /* a write to the side's read-only half */

    switch (below(g, 8)) {
    case 0:
        write_frame(g, PCI_WRITE, offset + (stray ? 0x10 : 0), enables);
        break;
    case 1:
        write_frame(g, ADDON_WRITE, offset + (stray ? 0 : 0x10), enables);
        break;
    case 2:
        read_frame(g, ADDON_READ, offset, enables);
        break;
    case 3:
        read_frame(g, PCI_READ, 0x10 + offset, enables);
        break;
    case 4:
        read_frame(g, PCI_READ, offset, enables);
        break;
    case 5:
        read_frame(g, ADDON_READ, 0x10 + offset, enables);
        break;
    case 6:
        read_frame(g, ADDON_READ, 0x34, some_enables(g));
        break;
    default:
        read_frame(g, PCI_READ, 0x34, some_enables(g));
    }
}

/* Clears flags of one register with written ones: the right ones, others,
 * or too few bytes. */
static void clear_own_flags(struct generator *g, bool card)
{
    uint32_t kept = own_bits(g, card) & 0xFFFF;
    uint32_t ones = one_in(g, 3) ? random32(g) & 0x003F0000
                                 : own_bits(g, card) & 0x003F0000;
    uint32_t enables = one_in(g, 4) ? below(g, 16) : 15;

    own_write(g, card, INTCSR, enables, ones | kept);
    own_read(g, card, INTCSR);
}

static void clear_flags(struct generator *g)
{
    clear_own_flags(g, false);
    if (one_in(g, 2))
        clear_own_flags(g, true);
}

/* What changes a mark of a half: the write that fills, the read that
 * empties. */
static void fill(struct generator *g, bool incoming, uint32_t box,
                 uint32_t enables)
{
    write_frame(g, incoming ? ADDON_WRITE : PCI_WRITE,
                (incoming ? 0x10 : 0) + 4 * box, enables);
}

static void fetch(struct generator *g, bool incoming, uint32_t box,
                  uint32_t enables)
{
    read_frame(g, incoming ? PCI_READ : ADDON_READ,
               (incoming ? 0x10 : 0) + 4 * box, enables);
}

/* One side chooses a byte for one event; it is mostly made ready to change
 * over, then touched, or one beside it. The driver waits for fetches of
 * outgoing bytes, the card for those of incoming ones. */
static void mail_event(struct generator *g)
{
    uint32_t turn = (uint32_t)(g->turn++);
    bool incoming = turn % 2 != 0;
    uint32_t choice = turn / 2 % 16;
    bool card = turn / 32 % 2 != 0;
    uint32_t on = one_in(g, 4) ? 0 : 0x10;
    uint32_t byte = one_in(g, 4) ? below(g, 4) : choice % 4;
    uint32_t box = one_in(g, 4) ? below(g, 4) : choice / 4;
    uint32_t enables = one_in(g, 3) ? below(g, 16) : UINT32_C(1) << byte;
    uint32_t bits = on | choice;
    uint32_t other = random32(g) & 0x1F;
    bool waits_for_fetch = incoming == card;

    own_write(g, card, INTCSR, 15,
              incoming ? bits << 8 | other : other << 8 | bits);
    if (!one_in(g, 3))
        (waits_for_fetch ? fill : fetch)(g, incoming, box, enables);
    (waits_for_fetch ? fetch : fill)(g, incoming, box, enables);
    own_read(g, card, INTCSR);
    if (one_in(g, 3))
        own_write(g, card, INTCSR, 3, random32(g) & 0x1F1F);
    if (one_in(g, 2))
        clear_own_flags(g, card);
}

static void mailboxes_move(struct generator *g)
{
    bool card;

    switch (below(g, 8)) {
    case 0:
    case 1:
        mail_event(g);
        break;
    case 2:
        card = one_in(g, 2);
        if (one_in(g, 6))
            own_write(g, card, MCSR, some_enables(g), 0x08000000);
        frame(g, PCI_READ, 0x34, 15, 0);
        break;
    case 3:
        if (one_in(g, 4))
            look(g);
        break;
    default:
        for (uint32_t n = below(g, 6); n > 0; n--)
            mail_traffic(g);
    }
}

/* ---- polls ---- */

/* A side chooses a byte of each half, mostly with both events on and no
 * flag left. */
static void choose_bytes(struct generator *g, bool card)
{
    uint32_t bits = random32(g) & 0x0F0F;

    if (!one_in(g, 6))
        bits |= 0x0010;
    if (!one_in(g, 6))
        bits |= 0x1000;
    if (!one_in(g, 6))
        bits |= 0x003F0000;
    if (one_in(g, 4))
        bits |= random32(g) & 0xC000;
    own_write(g, card, INTCSR, 15, bits);
}

/* An access to the mailbox that a side has chosen of a half: mostly the
 * chosen byte, alone or with others, else any bytes. */
static void touch_chosen(struct generator *g, uint32_t kind, bool incoming)
{
    bool card = one_in(g, 2);
    uint32_t choice = own_bits(g, card) >> (incoming ? 8 : 0) & 15;
    uint32_t offset = (incoming ? 0x10 : 0) + choice / 4 * 4;
    uint32_t enables = one_in(g, 2) ? below(g, 16) : 0;

    if (!one_in(g, 8))
        enables |= UINT32_C(1) << choice % 4;
    write_frame(g, kind, offset, enables);
}

/* A side looks at its flags and mostly clears them. */
static void take_flags(struct generator *g, bool card)
{
    own_read(g, card, INTCSR);
    if (!one_in(g, 4))
        own_write(g, card, INTCSR, 4, 0x003F0000);
}

/* All marks emptied while some may be set; sometimes byte 3 is missing. */
static void clear_marks(struct generator *g)
{
    bool card = one_in(g, 2);
    uint32_t enables = one_in(g, 4) ? below(g, 16) : 8;

    own_write(g, card, MCSR, enables,
              0x08000000 | (g->chip.mcsr & 0xFF00));
    own_read(g, card, INTCSR);
}

/* The card asks again and again for a message that comes once, and writes
 * its answers without waiting for the driver. */
static void poll_once(struct generator *g)
{
    switch (below(g, 10)) {
    case 0:
    case 1:
        touch_chosen(g, PCI_WRITE, false);
        break;
    case 2:
    case 3:
    case 4:
        for (uint32_t n = 1 + below(g, 3); n > 0; n--)
            touch_chosen(g, ADDON_READ, false);
        break;
    case 5:
    case 6:
        for (uint32_t n = 1 + below(g, 3); n > 0; n--)
            touch_chosen(g, ADDON_WRITE, true);
        break;
    case 7:
        touch_chosen(g, PCI_READ, true);
        break;
    case 8:
        touch_chosen(g, one_in(g, 2) ? PCI_READ : ADDON_WRITE, false);
        touch_chosen(g, one_in(g, 2) ? ADDON_READ : PCI_WRITE, true);
        break;
    default:
        if (one_in(g, 2))
            clear_marks(g);
        else if (one_in(g, 4))
            plain_frame(g, CHIP_RESET);
        else
            frame(g, PCI_READ, 0x34, 15, 0);
    }
}

static void polls_move(struct generator *g)
{
    choose_bytes(g, false);
    choose_bytes(g, true);
    for (uint32_t n = 4 + below(g, 20); n > 0; n--) {
        poll_once(g);
        if (one_in(g, 3))
            take_flags(g, false);
        if (one_in(g, 3))
            take_flags(g, true);
    }
    if (one_in(g, 8))
        look(g);
}

/* ---- FIFOs ---- */

static void port_write(struct generator *g, bool pci, uint32_t enables)
{
    write_frame(g, pci ? PCI_WRITE : ADDON_WRITE, 0x20, enables);
}

static void port_read(struct generator *g, bool pci, uint32_t enables)
{
    read_frame(g, pci ? PCI_READ : ADDON_READ, 0x20, enables);
}

static void some_port(struct generator *g)
{
    uint32_t enables = one_in(g, 8) ? below(g, 16) : 15;

    if (one_in(g, 2))
        port_write(g, one_in(g, 2), enables);
    else
        port_read(g, one_in(g, 2), enables);
}

/* Both control registers, which show both FIFOs. */
static void look_at_fifos(struct generator *g)
{
    own_read(g, false, MCSR);
    own_read(g, true, AGCSTS);
}

/* Writes until the FIFO is full, and once or more beyond. */
static void drive_full(struct generator *g, bool pci)
{
    const struct fifo *f = pci ? &g->chip.to_addon : &g->chip.to_pci;

    while (f->fill < FIFO_WORDS && g->left > 0) {
        port_write(g, pci, 15);
        if (one_in(g, 3))
            own_read(g, one_in(g, 2), MCSR);
        if (one_in(g, 10))
            port_read(g, !pci, 15);
    }
    for (uint32_t n = 1 + below(g, 2); n > 0; n--)
        port_write(g, pci, one_in(g, 6) ? below(g, 16) : 15);
    look_at_fifos(g);
}

/* Reads until the FIFO is empty, and once or more beyond. */
static void drive_empty(struct generator *g, bool pci)
{
    const struct fifo *f = pci ? &g->chip.to_pci : &g->chip.to_addon;

    while (f->fill > 0 && g->left > 0) {
        port_read(g, pci, 15);
        if (one_in(g, 3))
            own_read(g, one_in(g, 2), MCSR);
        if (one_in(g, 10))
            port_write(g, !pci, 15);
    }
    for (uint32_t n = 1 + below(g, 2); n > 0; n--)
        port_read(g, pci, one_in(g, 6) ? below(g, 16) : 15);
    look_at_fifos(g);
}

/* Bits 25 to 27 of MCSR or AGCSTS as written ones, sometimes without byte
 * 3. */
static void clear_parts(struct generator *g)
{
    bool card = one_in(g, 2);
    uint32_t ones = below(g, 8) << 25;
    uint32_t enables = one_in(g, 4) ? below(g, 16) : 8 + below(g, 8);

    own_write(g, card, MCSR, enables, ones | (g->chip.mcsr & 0xFF00));
    look_at_fifos(g);
}

static void fifos_move(struct generator *g)
{
    bool pci = one_in(g, 2);

    switch (below(g, 8)) {
    case 0:
        drive_full(g, pci);
        break;
    case 1:
        drive_empty(g, pci);
        break;
    case 2:
        if (one_in(g, 3))
            clear_parts(g);
        break;
    case 3:
        read_frame(g, pci ? PCI_READ : ADDON_READ, 0x3C, some_enables(g));
        break;
    default:
        for (uint32_t n = 1 + below(g, 8); n > 0; n--)
            some_port(g);
    }
}

/* ---- transfers ---- */

/* Addresses in the memory and round its edges; low bits are not kept. */
static uint32_t some_address(struct generator *g)
{
    uint32_t near = 4 * below(g, 8);

    switch (below(g, 8)) {
    case 0:  return near + below(g, 4);
    case 1:  return 0x3FE0 + near;
    case 2:  return 0x3FFC;
    case 3:
        if (one_in(g, 3))
            return one_in(g, 2) ? 0x4000 + near : 0x4000;
        return 0x100 + near;
    case 4:
        if (one_in(g, 3))
            return one_in(g, 2) ? 0xFFFFFFFC : 0xFFFFFFE0 + near;
        return 0x200 + near;
    case 5:  return one_in(g, 6) ? random32(g) : 0x100 + near;
    case 6:  return 0x3FF0;
    default: return below(g, 0x4000);
    }
}

static uint32_t some_count(struct generator *g)
{
    if (one_in(g, 24))
        return one_in(g, 2) ? random32(g) : 0;
    return 1 + below(g, 40);
}

/* MCSR with cycles mostly on and the four-word bits by chance. */
static uint32_t some_mcsr(struct generator *g)
{
    uint32_t bits = one_in(g, 8) ? 0 : 0x4400;

    if (one_in(g, 3))
        bits |= 0x0200;
    if (one_in(g, 3))
        bits |= 0x2000;
    if (one_in(g, 4))
        bits ^= 1u << (8 + below(g, 8));
    return bits;
}

static void set_up(struct generator *g, bool write, uint32_t address,
                   uint32_t count)
{
    pci_write(g, write ? WRITE_ADDRESS : READ_ADDRESS, address);
    pci_write(g, write ? WRITE_COUNT : READ_COUNT, count);
}

/* An address in the memory and a count of one cycle or more. */
static void set_up_inside(struct generator *g, bool write, uint32_t most)
{
    uint32_t address = 4 * below(g, MEMORY_WORDS);

    set_up(g, write, address, 1 + below(g, most));
}

/* A count that is written zero, as no cycle brings it there; both sides
 * would be told of a cycle. */
static void write_count_zero(struct generator *g, bool write)
{
    own_write(g, true, AINT, 15, 0x002FC000);
    pci_write(g, INTCSR, 0x003FC000);
    pci_write(g, write ? WRITE_COUNT : READ_COUNT, 1 + below(g, 40));
    pci_write(g, write ? WRITE_COUNT : READ_COUNT, 0);
    own_read(g, one_in(g, 2), INTCSR);
}

static void cycle(struct generator *g, bool write)
{
    plain_frame(g, write ? WRITE_CYCLE : READ_CYCLE);
}

/* Reads what a cycle may have changed. */
static void look_at_transfer(struct generator *g, bool write)
{
    frame(g, PCI_READ, write ? 0x24 : 0x2C, 15, 0);
    frame(g, PCI_READ, write ? 0x28 : 0x30, 15, 0);
    own_read(g, false, INTCSR);
    if (one_in(g, 3))
        own_read(g, true, AINT);
    look_at_fifos(g);
}

/* Feeds the Add-On-to-PCI FIFO and makes write cycles, more of either. */
static void write_run(struct generator *g)
{
    uint32_t feed = 3 + below(g, 6);

    for (uint32_t n = 4 + below(g, 24); n > 0; n--) {
        if (below(g, 12) < feed)
            port_write(g, false, 15);
        else
            cycle(g, true);
        if (one_in(g, 8))
            look_at_transfer(g, true);
    }
    look_at_transfer(g, true);
}

/* Makes read cycles and empties the PCI-to-Add-On FIFO, more of either. */
static void read_run(struct generator *g)
{
    uint32_t drain = 1 + below(g, 6);

    for (uint32_t n = 4 + below(g, 24); n > 0; n--) {
        if (below(g, 12) < drain)
            port_read(g, false, 15);
        else
            cycle(g, false);
        if (one_in(g, 8))
            look_at_transfer(g, false);
    }
    look_at_transfer(g, false);
}

/* Reads memory back from an address: read cycles, then port reads. */
static void read_back(struct generator *g, uint32_t address)
{
    uint32_t words = 1 + below(g, 10);

    pci_write(g, INTCSR, (g->chip.intcsr & 0xDF1F) | 0x003F0000);
    pci_write(g, MCSR, 0x02004000 | (g->chip.mcsr & 0x8700));
    set_up(g, false, address, 4 * words - below(g, 4));
    for (uint32_t i = 0; i < words; i++) {
        cycle(g, false);
        frame(g, ADDON_READ, 0x20, 15, 0);
    }
    look_at_transfer(g, false);
}

static void transfers_move(struct generator *g)
{
    uint32_t address = some_address(g);
    bool write = one_in(g, 2);

    if (one_in(g, 2))
        pci_write(g, MCSR, some_mcsr(g));
    if (!one_in(g, 8))
        pci_write(g, INTCSR, 0x00300000 | (random32(g) & 0x000FDF1F));
    if (!one_in(g, 3))
        own_write(g, true, AINT, one_in(g, 4) ? below(g, 16) : 15,
                  0x00200000 | (random32(g) & 0x000FDF1F));
    if (!one_in(g, 8))
        set_up(g, write, address, some_count(g));
    if (write)
        write_run(g);
    else
        read_run(g);
    if (one_in(g, 6))
        write_count_zero(g, write);
    if (write && one_in(g, 2))
        read_back(g, address);
    if (one_in(g, 2))
        clear_flags(g);
    if (one_in(g, 8))
        clear_parts(g);
}

/* ---- aborts ---- */

/* An address surely outside the memory of the log program. */
static uint32_t outside(struct generator *g)
{
    switch (below(g, 4)) {
    case 0:  return 0x4000;
    case 1:  return 0xFFFFFFFC;
    case 2:  return 0x4000 + 4 * below(g, 64);
    default: return 0x4000 + below(g, 0xFFFFC000);
    }
}

/* Sets other flags first: events, or counts brought to zero. */
static void other_flags(struct generator *g)
{
    uint32_t enables = random32(g) & 0xC000;

    pci_write(g, INTCSR, 0x1010 | enables);
    if (one_in(g, 2))
        own_write(g, true, AINT, 15, random32(g) & 0x000FDF1F);
    if (one_in(g, 2)) {
        write_frame(g, PCI_WRITE, 0, 1);
        frame(g, ADDON_READ, 0, 1, 0);
    }
    if (one_in(g, 2)) {
        frame(g, PCI_READ, 0x10, 1, 0);
        write_frame(g, ADDON_WRITE, 0x10, 1);
    }
    if (one_in(g, 2)) {
        set_up_inside(g, true, 4);
        port_write(g, false, 15);
        cycle(g, true);
    }
    if (one_in(g, 2)) {
        set_up_inside(g, false, 4);
        cycle(g, false);
    }
}

/* Clears INTCSR's bit 20 surely, and sometimes AINT's 21, before or after:
 * as long as that stands, cycles go on. */
static void clear_abort(struct generator *g)
{
    uint32_t enables = below(g, 16) | 4;
    uint32_t turn = below(g, 4);

    if (turn == 0)
        own_write(g, true, AINT, enables, 0x00200000 | g->chip.aint);
    frame(g, PCI_WRITE, 0x38, enables,
          0x00100000 | (random32(g) & 0xFFFFDF1F));
    if (turn == 1)
        own_write(g, true, AINT, 4, 0x00200000);
}

static void aborts_move(struct generator *g)
{
    bool write = one_in(g, 2);
    uint32_t address = outside(g);

    pci_write(g, MCSR, 0x4400 | (random32(g) & 0x9100));
    if (one_in(g, 2))
        other_flags(g);
    if (g->chip.to_pci.fill == 0 || one_in(g, 3))
        port_write(g, false, 15);
    if (g->chip.to_addon.fill == FIFO_WORDS)
        port_read(g, false, 15);
    set_up(g, write, address, 1 + below(g, 40));
    for (uint32_t n = 1 + below(g, 3); n > 0; n--) {
        cycle(g, write);
        frame(g, PCI_READ, 0x38, 15, 0);
        if (one_in(g, 2))
            own_read(g, true, AINT);
        cycle(g, one_in(g, 4) ? !write : write);
        if (one_in(g, 3))
            clear_flags(g);
        if (one_in(g, 4))
            look(g);
        clear_abort(g);
        frame(g, PCI_READ, 0x38, some_enables(g), 0);
    }
    if (one_in(g, 2))
        set_up_inside(g, write, 40);
    cycle(g, write);
    look_at_transfer(g, write);
}

/* ---- bursts ---- */

enum {
    LAST_WORD, LAST_PORT, COUNT_USED, COUNT_ZERO, FOUR_OFF, CYCLES_OFF,
    NO_MEMORY, OTHER_NO_MEMORY, CLEARED, CLEARED_BY_CARD, CLEARED_EMPTY,
    AT_RESET, BURST_ENDS
};

/* The two bits of MCSR that a lane's burst needs: four, and its enable. */
static uint32_t lane_bits(bool write)
{
    return write ? 0x0600 : 0x6000;
}

/* Words that the lane can move: held, or that there is room for. */
static uint32_t ready_words(const struct generator *g, bool write)
{
    return write ? g->chip.to_pci.fill : FIFO_WORDS - g->chip.to_addon.fill;
}

/* Brings the lane's FIFO to so many by its ports; on its way it is never
 * empty, or full, unless n is 0. */
static void level(struct generator *g, bool write, uint32_t n)
{
    while (ready_words(g, write) < n && g->left > 0)
        (write ? port_write : port_read)(g, false, 15);
    while (ready_words(g, write) > n && g->left > 0)
        (write ? port_read : port_write)(g, true, 15);
}

/* Both lanes in one small part of the memory, so that reads meet what was
 * written. */
static uint32_t burst_address(struct generator *g)
{
    return 0x1000 + 4 * below(g, 24);
}

/* Everything that a burst of the lane needs but the words; sometimes the
 * other lane's bits go off. */
static void burst_set_up(struct generator *g, bool write)
{
    uint32_t other = one_in(g, 4) ? 0 : lane_bits(!write);
    uint32_t rest = random32(g) & 0x9100;

    pci_write(g, INTCSR, 0x00300000 | (random32(g) & 0x000FDF1F));
    own_write(g, false, MCSR, one_in(g, 2) ? 2 : 3,
              lane_bits(write) | other | rest);
    set_up(g, write, burst_address(g), 33 + below(g, 64));
}

/* Four or more, and the cycle that earns the right. */
static void earn(struct generator *g, bool write)
{
    level(g, write, one_in(g, 2) ? 4 : 4 + below(g, 5));
    cycle(g, write);
}

/* Written ones clear a FIFO: of a lane, by a side. */
static void clear_lane(struct generator *g, bool write, bool card,
                       uint32_t enables)
{
    own_write(g, card, MCSR, enables,
              (write != card ? 0x04000000 : 0x02000000)
              | (g->chip.mcsr & 0xFF00));
}

/* The other lane's right, if it stands, ends in some way of its own. */
static void end_other(struct generator *g, bool write)
{
    uint32_t off = one_in(g, 2) ? 0x2200 : 0x4400;

    if (one_in(g, 2))
        pci_write(g, write ? READ_COUNT : WRITE_COUNT, 0);
    else
        own_write(g, false, MCSR, 2,
                  g->chip.mcsr & ~(off & lane_bits(!write)));
    set_up_inside(g, !write, 64);
    own_write(g, false, MCSR, 2, g->chip.mcsr | 0x6600);
}

/* What leaves the lane's right as it is. */
static void beside_burst(struct generator *g, bool write)
{
    uint32_t rest = random32(g) & 0x9100;

    switch (below(g, 10)) {
    case 0:
        pci_write(g, write ? WRITE_ADDRESS : READ_ADDRESS,
                  burst_address(g));
        break;
    case 1:
        pci_write(g, write ? WRITE_COUNT : READ_COUNT, 33 + below(g, 64));
        break;
    case 2:
        clear_lane(g, !write, one_in(g, 2), 8);
        break;
    case 3:
        own_write(g, false, MCSR, one_in(g, 2) ? 2 : 15,
                  (g->chip.mcsr & 0x6600) | rest);
        break;
    case 4:
        clear_lane(g, write, one_in(g, 2), below(g, 8));
        break;
    case 5:
        end_other(g, write);
        break;
    case 6:
        level(g, write, FIFO_WORDS);
        break;
    case 7:
        earn(g, !write);
        break;
    case 8:
        pci_write(g, INTCSR, random32(g) & 0x003FDF1F);
        break;
    default:
        look_at_transfer(g, write);
    }
}

/* A cycle that finds no memory, on a lane that is ready for it. */
static void miss(struct generator *g, bool write)
{
    own_write(g, false, MCSR, 2, g->chip.mcsr | (write ? 0x0400 : 0x4000));
    set_up(g, write, outside(g), 1 + below(g, 40));
    if (ready_words(g, write) < 4)
        level(g, write, 4);
    cycle(g, write);
}

static void end_burst(struct generator *g, bool write, uint32_t how)
{
    const uint32_t *right = write ? &g->chip.write_right
                                  : &g->chip.read_right;
    uint32_t off = lane_bits(write) & (how == FOUR_OFF ? 0x2200 : 0x4400);

    switch (how) {
    case LAST_WORD:
        pci_write(g, write ? WRITE_COUNT : READ_COUNT, 64);
        while (*right && g->left > 0)
            cycle(g, write);
        break;
    case LAST_PORT:
        level(g, write, 0);
        break;
    case COUNT_USED:
        level(g, write, 2 + below(g, 3));
        pci_write(g, write ? WRITE_COUNT : READ_COUNT, 1 + below(g, 4));
        cycle(g, write);
        break;
    case COUNT_ZERO:
        pci_write(g, write ? WRITE_COUNT : READ_COUNT,
                  one_in(g, 2) ? 0 : random32(g) & 0xFC000000);
        break;
    case FOUR_OFF:
    case CYCLES_OFF:
        own_write(g, false, MCSR, 2, g->chip.mcsr & ~off);
        break;
    case NO_MEMORY:
        miss(g, write);
        break;
    case OTHER_NO_MEMORY:
        miss(g, !write);
        break;
    case CLEARED:
    case CLEARED_BY_CARD:
        clear_lane(g, write, how == CLEARED_BY_CARD, 8 + below(g, 8));
        break;
    case CLEARED_EMPTY:
        level(g, write, write ? 1 : FIFO_WORDS);
        clear_lane(g, write, one_in(g, 2), 8 + below(g, 8));
        break;
    default:
        plain_frame(g, CHIP_RESET);
    }
}

/* Mends what the end has left, in the least way, and asks for a cycle with
 * one to three words: the right is gone, so it is not ready. */
static void after_burst(struct generator *g, bool write)
{
    const uint32_t *count = write ? &g->chip.write_count
                                  : &g->chip.read_count;

    if (g->chip.intcsr & 0x00300000)
        frame(g, PCI_WRITE, 0x38, 4, 0x00300000);
    if ((g->chip.mcsr & lane_bits(write)) != lane_bits(write))
        own_write(g, false, MCSR, 2, g->chip.mcsr | lane_bits(write));
    if (*count == 0)
        pci_write(g, write ? WRITE_COUNT : READ_COUNT, 33 + below(g, 64));
    pci_write(g, write ? WRITE_ADDRESS : READ_ADDRESS, burst_address(g));
    level(g, write, 1 + below(g, 3));
    cycle(g, write);
    if (one_in(g, 4))
        look_at_transfer(g, write);
}

static void bursts_move(struct generator *g)
{
    bool write = one_in(g, 2);
    uint32_t how = (uint32_t)(g->turn++ % BURST_ENDS);

    burst_set_up(g, write);
    if (one_in(g, 2)) {
        set_up_inside(g, !write, 64);
        earn(g, !write);
    }
    if (one_in(g, 4)) {
        level(g, write, 1 + below(g, 3));
        cycle(g, write);
    }
    earn(g, write);
    for (uint32_t n = below(g, 6); n > 0; n--) {
        if (one_in(g, 2))
            beside_burst(g, write);
        if (!one_in(g, 3) || ready_words(g, write) < 2)
            level(g, write, 2 + below(g, 3));
        cycle(g, write);
    }
    end_burst(g, write, how);
    after_burst(g, write);
}

/* ---- firmware ---- */

/* The driver's side of it: messages, words and cycles, some of them where
 * there is no memory. */
static void driver_does(struct generator *g)
{
    bool write = one_in(g, 2);
    uint32_t address = outside(g), count = 1 + below(g, 8);

    switch (below(g, 6)) {
    case 0:
    case 1:
        touch_chosen(g, PCI_WRITE, false);
        break;
    case 2:
        touch_chosen(g, PCI_READ, true);
        break;
    case 3:
        port_write(g, true, 15);
        break;
    case 4:
        port_read(g, true, 15);
        break;
    default:
        pci_write(g, MCSR, 0x4400);
        set_up(g, write, one_in(g, 2) ? address : 0x100, count);
        cycle(g, write);
        cycle(g, one_in(g, 4) ? !write : write);
        if (!one_in(g, 3))
            frame(g, PCI_WRITE, 0x38, 4, 0x00300000);
    }
}

/* The card's: it asks its own registers why it was called, and answers. */
static void card_does(struct generator *g)
{
    uint32_t offset = one_in(g, 2) ? 0x38 : 0x3C;

    read_frame(g, ADDON_READ, 0x38, some_enables(g));
    switch (below(g, 6)) {
    case 0:
        touch_chosen(g, ADDON_READ, false);
        break;
    case 1:
        touch_chosen(g, ADDON_WRITE, true);
        break;
    case 2:
        port_read(g, false, 15);
        break;
    case 3:
        port_write(g, false, 15);
        break;
    case 4:
        clear_parts(g);
        break;
    default:
        write_frame(g, ADDON_WRITE, offset, some_enables(g));
    }
    read_frame(g, ADDON_READ, 0x3C, some_enables(g));
    if (!one_in(g, 3))
        clear_own_flags(g, true);
}

static void firmware_move(struct generator *g)
{
    choose_bytes(g, true);
    if (one_in(g, 3))
        choose_bytes(g, false);
    for (uint32_t n = 2 + below(g, 16); n > 0; n--) {
        driver_does(g);
        if (!one_in(g, 3))
            card_does(g);
    }
    if (one_in(g, 8))
        plain_frame(g, CHIP_RESET);
    if (one_in(g, 4))
        look(g);
}

/* ---- unknown ---- */

/* A kind of 7 to FF, often one just above the known ones. */
static uint32_t unknown_kind(struct generator *g)
{
    return 7 + below(g, one_in(g, 2) ? 4 : 249);
}

/* An offset not in the table. */
static uint32_t unknown_offset(struct generator *g, uint32_t table)
{
    for (;;) {
        uint32_t offset = below(g, one_in(g, 2) ? 0x48 : 0x100);

        if (offset % 4 != 0 || offset >= 0x40 || !(table >> offset / 4 & 1))
            return offset;
    }
}

static void unknown_move(struct generator *g)
{
    uint32_t kind = below(g, 4);
    bool pci = kind == PCI_READ || kind == PCI_WRITE;
    uint32_t offset = 4 * below(g, REGISTERS);
    uint32_t enables = below(g, 16);

    switch (below(g, 6)) {
    case 0:
        write_frame(g, unknown_kind(g), offset, enables);
        break;
    case 1:
        offset = unknown_offset(g, pci ? PCI_TABLE : ADDON_TABLE);
        write_frame(g, kind, offset, enables);
        break;
    case 2:
        write_frame(g, kind, 0x20, enables);
        break;
    case 3:
    case 4:
        if ((pci ? PCI_READ_ONLY : ADDON_READ_ONLY) >> offset / 4 & 1)
            write_frame(g, pci ? PCI_WRITE : ADDON_WRITE, offset, enables);
        break;
    default:
        if (one_in(g, 10))
            look(g);
        else if (one_in(g, 6))
            mail_event(g);
        else
            mail_traffic(g);
    }
}

/* ---- broken lines ---- */

/* The text of a good frame of a known kind; 13 digits and a NUL. */
static void frame_text(struct generator *g, bool lower, uint32_t enables,
                       char text[16])
{
    uint32_t kind = below(g, 7);
    uint32_t offset = 4 * below(g, REGISTERS);
    uint32_t data = random32(g);

    snprintf(text, 16, lower ? LOWER : UPPER, (unsigned)kind,
             (unsigned)offset, (unsigned)enables, (unsigned)data);
}

/* A frame's text with one byte that is no digit. */
static void spoilt_digit(struct generator *g)
{
    static const unsigned char wrong[] = {
        '/', ':', '@', 'G', 'a', 'f', 'g', '`', ' ', '\t', '\r', '\0',
        'x', '-', '+', '.', 0x7F, 0x80, 0xB0, 0xC1, 0xFF
    };
    char text[16];
    uint32_t at = below(g, 13);

    frame_text(g, false, 15, text);
    text[at] = (char)wrong[below(g, sizeof wrong)];
    raw_line(g, text, 13);
}

/* A frame's text cut short, or with something before or after it. */
static void altered_frame(struct generator *g)
{
    static const char *const before[] = { "", " ", "\t", "0", "\r", "0x" };
    static const char *const after[] = { "\r", " ", "\t", "0", "", "  " };
    const char *first = before[below(g, 6)];
    const char *last = after[below(g, 6)];
    char good[16], text[32];
    int n;

    frame_text(g, false, below(g, 16), good);
    if (one_in(g, 3))
        good[below(g, 13)] = '\0';
    n = snprintf(text, sizeof text, "%s%s%s", first, good, last);
    if (n == 13)
        n--;                    /* it could be a frame */
    raw_line(g, text, (size_t)n);
}

/* A frame's text in lower case, with a letter in it for certain. */
static void lower_case(struct generator *g)
{
    char text[16];

    frame_text(g, true, 10 + below(g, 6), text);
    raw_line(g, text, 13);
}

/* Lengths where a counter or a buffer may go wrong. */
static size_t long_length(struct generator *g)
{
    static const uint32_t lengths[] = {
        12, 13 + 256, 13 + 65536, 4096, 8192, 32768, 65535, 65536, 65537,
        LONG_LINE_MAX
    };
    uint32_t less = below(g, 2);

    if (one_in(g, 2))
        return lengths[below(g, 10)] - less;
    return 14 + below(g, LONG_LINE_MAX - 13);
}

/* A long line of digits only, or of any bytes but LF. */
static void long_line(struct generator *g)
{
    static char text[LONG_LINE_MAX];
    size_t n = long_length(g);
    bool digits = one_in(g, 2);

    for (size_t i = 0; i < n; i++) {
        unsigned char b = (unsigned char)random32(g);

        if (digits)
            b = (unsigned char)"0123456789ABCDEF"[b % 16];
        text[i] = (char)(b == '\n' ? '\0' : b);
    }
    raw_line(g, text, n);
}

/* A short line of any bytes but LF; never a frame. */
static void noise(struct generator *g)
{
    char text[40];
    uint32_t n = 1 + below(g, 39);
    uint32_t at;

    for (uint32_t i = 0; i < n; i++) {
        unsigned char b = (unsigned char)random32(g);

        text[i] = (char)(b == '\n' ? '\r' : b);
    }
    at = below(g, n);
    text[at] = (char)(0x80 + below(g, 128));
    raw_line(g, text, n);
}

static void broken_line(struct generator *g)
{
    switch (below(g, 8)) {
    case 0:
        /* an empty line needs its LF, so it can't be an open end */
        if (g->left == 1 && g->open_end)
            raw_line(g, "xyz", 3);
        else
            raw_line(g, "", 0);
        break;
    case 1:
        lower_case(g);
        break;
    case 2:
        noise(g);
        break;
    case 3:
        raw_line(g, "\r", 1);
        break;
    case 4:
        if (one_in(g, 100))
            long_line(g);
        else
            noise(g);
        break;
    case 5:
        altered_frame(g);
        break;
    default:
        spoilt_digit(g);
    }
}

static void broken_move(struct generator *g)
{
    static move *const good[] = {
        mailboxes_move, fifos_move, aborts_move, unknown_move
    };

    for (uint32_t n = 1 + below(g, 12); n > 0; n--)
        broken_line(g);
    if (g->left > 1)
        good[below(g, 4)](g);
}

/* ---- first lines ---- */

static void set_line(unsigned set)
{
    printf("%02X\n", set);
}

/* Short first lines, with LF and without. */
static void short_first_line(struct generator *g)
{
    static const char few[] = "00001111\n\r 2";
    uint32_t n = below(g, 5);

    for (uint32_t i = 0; i < n; i++)
        putchar(few[below(g, sizeof few - 1)]);
    if (one_in(g, 2))
        putchar('\n');
    else
        g->left = one_in(g, 2) ? 0 : g->left;
}

/* A set line with one byte changed, put in or taken out; or cut off, at
 * the end of the input. */
static void altered_set_line(struct generator *g)
{
    char text[8] = { '0', (char)('0' + below(g, 2)), '\n', '\0' };
    uint32_t at = below(g, 3);
    uint32_t form = below(g, 4);

    if (form == 0)
        text[at] = (char)random32(g);
    else if (form == 1)
        memmove(text + at, text + at + 1, 3 - at);
    else if (form == 2)
        memmove(text + at + 1, text + at, 3 - at);
    else
        g->left = 0;
    fwrite(text, 1, form == 0 ? 3 : form == 1 ? 2 : form == 2 ? 4 : at,
           stdout);
}

/* Some first line, by the seed; the lines behind it are the profile's. */
static void some_first_line(struct generator *g)
{
    switch (below(g, 8)) {
    case 0:
        set_line(below(g, 256));
        break;
    case 1:
        set_line(below(g, SETS));
        break;
    case 2:
        break;                  /* none: a frame comes first */
    case 3:
        for (uint32_t n = 1 + below(g, 100000); n > 0; n--)
            putchar('0');
        break;
    case 4:
    case 5:
        short_first_line(g);
        break;
    default:
        altered_set_line(g);
    }
}

/* ---- resets and mixes ---- */

static void resets_move(struct generator *g)
{
    static move *const moves[] = {
        registers_move, mailboxes_move, fifos_move, transfers_move,
        aborts_move, unknown_move, polls_move, firmware_move, bursts_move
    };

    for (uint32_t n = 1 + below(g, 3); n > 0; n--)
        moves[below(g, 9)](g);
    if (one_in(g, 6))
        broken_line(g);
    if (one_in(g, 2))
        plain_frame(g, CHIP_RESET);
    else
        clear_parts(g);
    if (one_in(g, 2))
        look(g);
    else
        read_everything(g);
}

/* A stretch of lines of one profile. */
static void all_move(struct generator *g)
{
    static move *const moves[] = {
        registers_move, mailboxes_move, polls_move, fifos_move,
        fifos_move, transfers_move, transfers_move, firmware_move,
        aborts_move, unknown_move, broken_move, resets_move, bursts_move
    };
    move *chosen = moves[below(g, 13)];
    uint64_t stretch = 8 + below(g, 80);
    uint64_t goal = g->left > stretch ? g->left - stretch : 0;

    while (g->left > goal)
        chosen(g);
}

/* ---- the program ---- */

static const struct {
    const char *name;
    move *make;
} profiles[] = {
    { "registers", registers_move }, { "mailboxes", mailboxes_move },
    { "fifos", fifos_move }, { "transfers", transfers_move },
    { "aborts", aborts_move }, { "unknown", unknown_move },
    { "broken", broken_move }, { "resets", resets_move },
    { "all", all_move }, { "polls", polls_move },
    { "firmware", firmware_move }, { "bursts", bursts_move },
    { "sets", broken_move }
};

enum { PROFILES = sizeof profiles / sizeof profiles[0],
       SETS_PROFILE = PROFILES - 1 };

/* The profile's number; PROFILES if there is none of the name. */
static size_t profile_named(const char *name)
{
    size_t i = 0;

    while (i < PROFILES && strcmp(name, profiles[i].name) != 0)
        i++;
    return i;
}

static bool number_of(const char *text, uint64_t *number)
{
    char *end;

    *number = strtoull(text, &end, 10);
    return *text >= '0' && *text <= '9' && *end == '\0';
}

/* Takes the arguments; false if they are none. */
static bool arguments(struct generator *g, int argc, char **argv,
                      size_t *profile, uint64_t *set)
{
    if (argc != 4 && argc != 5)
        return false;
    *profile = profile_named(argv[1]);
    if (*profile == PROFILES || !number_of(argv[2], &g->random)
        || !number_of(argv[3], &g->left))
        return false;
    *set = (g->random + *profile) % SETS;
    return argc == 4 || (number_of(argv[4], set) && *set < SETS);
}

int main(int argc, char **argv)
{
    static struct generator g;
    size_t profile;
    uint64_t set;
    move *make;

    if (!arguments(&g, argc, argv, &profile, &set)) {
        fputs("usage: generate PROFILE SEED COUNT [SET] > frames\n", stderr);
        return 2;
    }
    make = profiles[profile].make;
    model_reset(&g.chip);
    g.window = (struct window){ g.memory, 0, MEMORY_WORDS };
    g.open_end = make == broken_move || make == all_move;
    if (profile == SETS_PROFILE)
        some_first_line(&g);
    else
        set_line((unsigned)set);
    while (g.left > 0 && !ferror(stdout))
        make(&g);
    return fflush(stdout) == 0 && !ferror(stdout) ? 0 : 1;
}
