/*
 * driver.c: a driver of the S5933, with the port functions of an operating
 * system over the model, and a card that plays the other side.
 *
 *   driver FILE             fetches two reports from the card; in the middle
 *                           of the first it saves all to FILE, and starts
 *                           afresh from there
 *   driver --resume FILE    goes on from a FILE that a run before has left
 *
 * FILE is replaced as a whole, by way of FILE.new beside it.
 *
 * Everything is decided by numbers. What stands on standard output is for
 * people.
 */
#define _POSIX_C_SOURCE 200809L

#include "s5933.h"

#include <errno.h>
#include <inttypes.h>
#include <limits.h>
#include <stdio.h>
#include <stdlib.h>
#include <string.h>
#include <unistd.h>

/* Where the registers are, and the memory that the card's cycles reach. */
enum { IO_BASE = 0xE400, DMA_ADDRESS = 0x00100000, DMA_WORDS = 64 };

/* What the driver looks for in INTCSR: a message, an abort, a report's end. */
enum {
    MESSAGE = S5933_INTCSR_INCOMING_EVENT,
    ABORTED = S5933_INTCSR_MASTER_ABORT | S5933_INTCSR_TARGET_ABORT,
    COMPLETE = S5933_INTCSR_WRITE_COUNT_ZERO
};

/* The reports that are to come, all of them after the file was saved. */
enum { REPORTS = 2 };

/* All of the machine: a restart needs these and nothing else. */
static s5933_controller chip;
static uint32_t dma[DMA_WORDS];
static const s5933_window memory = { dma, DMA_WORDS, DMA_ADDRESS };

/* The interrupt lines, as the latest step left them. */
static uint32_t host_line, card_line;

/* The reports that came. */
static unsigned reports;

static void complain(const char *what, const char *why)
{
    fprintf(stderr, "driver: %s: %s\n", what, why);
}

/* ---- steps ---- */

/* For a step that this program must not have been refused. */
static void end_by(const char *step, uint32_t at, uint32_t code)
{
    fprintf(stderr, "driver: %s %04" PRIX32 ": refused by code %" PRIu32 "\n",
            step, at, code);
    exit(1);
}

/* An interrupt has to have one of these reasons, or it would never end. */
static void must_have(uint32_t why, uint32_t reasons)
{
    if ((why & reasons) == 0) {
        fprintf(stderr, "driver: interrupt %08" PRIX32 ": unknown\n", why);
        exit(1);
    }
}

/* Takes the lines over; gives the data of an access, which has to be done. */
static uint32_t done(s5933_answer a, const char *step, uint32_t at)
{
    host_line = a.line;
    card_line = a.addon_line;
    if (a.code != S5933_DONE)
        end_by(step, at, a.code);
    return a.data;
}

/*
 * A port's register, and the bytes of it that an access of so many takes
 * part in. A port outside the card's gives an offset that the model refuses
 * by code 4, and an access across two registers enables that it refuses by
 * code 5.
 */
static uint32_t offset_of(uint16_t port)
{
    return ((uint32_t)port - IO_BASE) & ~UINT32_C(3);
}

static uint32_t enables_of(uint16_t port, unsigned bytes)
{
    return ((UINT32_C(1) << bytes) - 1) << port % 4;
}

/* The bus has four byte lanes; a port's data are in that of its address. */
static uint32_t in(uint16_t port, unsigned bytes)
{
    s5933_answer a = s5933_pci_read(&chip, &memory, offset_of(port),
                                    enables_of(port, bytes));

    return done(a, "in", port) >> 8 * (port % 4);
}

static void out(uint32_t value, uint16_t port, unsigned bytes)
{
    done(s5933_pci_write(&chip, &memory, offset_of(port),
                         enables_of(port, bytes), value << 8 * (port % 4)),
         "out", port);
}

/* ---- the operating system's port functions ---- */

static uint32_t inl(uint16_t port) { return in(port, 4); }
static uint8_t inb(uint16_t port) { return (uint8_t)(in(port, 1) & 0xFF); }
static void outl(uint32_t value, uint16_t port) { out(value, port, 4); }
static void outw(uint16_t value, uint16_t port) { out(value, port, 2); }
static void outb(uint8_t value, uint16_t port) { out(value, port, 1); }

/* ---- the card ---- */

static uint32_t card_read(uint32_t offset)
{
    return done(s5933_addon_read(&chip, &memory, offset, 0xF), "card reads",
                offset);
}

static void card_write(uint32_t offset, uint32_t enables, uint32_t data)
{
    done(s5933_addon_write(&chip, &memory, offset, enables, data),
         "card writes", offset);
}

/*
 * The report on a lift goes into the FIFO, which takes the 32 bytes that no
 * report is longer than; then its length goes into the mailbox.
 */
static void card_report(uint32_t lift)
{
    char text[32] = "";
    int length = snprintf(text, sizeof text, "LIFT %" PRIu32 ": DOOR DRIVE 2E",
                          lift);

    printf("card: a report of %d bytes\n", length);
    for (int at = 0; at < length; at += 4)
        card_write(S5933_FIFO, 0xF,
                   s5933_get_word((const uint8_t *)text + at));
    card_write(S5933_IMB1, 0xF, lift << 24 | (uint32_t)length);
}

static void card_interrupt(void)
{
    uint32_t why = card_read(S5933_AINT);

    must_have(why, S5933_AINT_OUTGOING_EVENT | S5933_AINT_ABORT);
    if (why & S5933_AINT_OUTGOING_EVENT) {
        uint32_t lift = card_read(S5933_OMB1);

        card_write(S5933_AINT, 4, S5933_AINT_OUTGOING_EVENT);
        printf("card: interrupt %08" PRIX32 ", order %" PRIu32 "\n", why,
               lift);
        card_report(lift);
    }
    if (why & S5933_AINT_ABORT) {
        card_write(S5933_AINT, 4, S5933_AINT_ABORT);
        printf("card: interrupt %08" PRIX32 ", the transfer was aborted\n",
               why);
    }
}

/* ---- the driver ---- */

/* A flag goes by a one. The flags have a byte of INTCSR to themselves. */
static void acknowledge(uint32_t flags)
{
    outb((uint8_t)(flags >> 16), IO_BASE + S5933_INTCSR + 2);
}

/* The card hears of byte 0 of OMB1, the driver of byte 3 of IMB1. */
static void set_up(void)
{
    card_write(S5933_AINT, 3, S5933_AINT_OUTGOING_ENABLE);
    outw(S5933_INTCSR_WRITE_COUNT_ENABLE | S5933_INTCSR_INCOMING_ENABLE
         | 3 << S5933_INTCSR_INCOMING_BYTE_AT, IO_BASE + S5933_INTCSR);
}

/* Asks for a report, to be stored at an address. */
static void order(uint32_t lift, uint32_t address)
{
    printf("driver: order %" PRIu32 ", to be stored at %08" PRIX32 "\n", lift,
           address);
    outl(address, IO_BASE + S5933_MWAR);
    outl(lift, IO_BASE + S5933_OMB1);
}

/* The card has a report: lets it come, in bursts. */
static void start_transfer(void)
{
    uint32_t message = inl(IO_BASE + S5933_IMB1);

    printf("driver: message %08" PRIX32 "\n", message);
    outl(message & 0xFF, IO_BASE + S5933_MWTC);
    outb((S5933_MCSR_WRITE_CYCLES | S5933_MCSR_WRITE_AT_FOUR) >> 8,
         IO_BASE + S5933_MCSR + 1);
}

/* It has come. Its length stands in the mailbox still. */
static void show_report(void)
{
    unsigned length = inb(IO_BASE + S5933_IMB1);

    printf("driver: \"");
    for (unsigned at = 0; at < length; at++)
        putchar((int)(dma[at / 4] >> 8 * (at % 4) & 0xFF));
    printf("\"\n");
    reports++;
}

/* There was no memory: a right address first, then the cycles may go on. */
static void recover(void)
{
    uint32_t address = inl(IO_BASE + S5933_MWAR);
    uint32_t left = inl(IO_BASE + S5933_MWTC);

    printf("driver: no memory at %08" PRIX32 ", %" PRIu32 " bytes to go\n",
           address, left);
    outl(DMA_ADDRESS, IO_BASE + S5933_MWAR);
    acknowledge(ABORTED);
}

static void host_interrupt(void)
{
    uint32_t why = inl(IO_BASE + S5933_INTCSR);

    printf("driver: interrupt %08" PRIX32 "\n", why);
    must_have(why, MESSAGE | ABORTED | COMPLETE);
    if (why & MESSAGE) {
        acknowledge(MESSAGE);
        start_transfer();
    }
    if (why & ABORTED)
        recover();
    if (why & COMPLETE) {
        acknowledge(COMPLETE);
        show_report();
    }
}

/* ---- the machine ---- */

/* Both sides answer their interrupts, until no line is raised. */
static void interrupts(void)
{
    while (card_line != 0 || host_line != 0) {
        if (card_line != 0)
            card_interrupt();
        if (host_line != 0)
            host_interrupt();
    }
}

/* A write cycle of the chip: 0 if it has none to make at the moment. */
static int cycle(void)
{
    s5933_answer a = s5933_write_cycle(&chip, &memory);

    host_line = a.line;
    card_line = a.addon_line;
    switch (a.code) {
    case S5933_DONE:
    case S5933_NO_MEMORY_THERE:
        printf("cycle: code %" PRIu32 ", address %08" PRIX32 ", data %08"
               PRIX32 ", enables %" PRIX32 "\n", a.code, a.address, a.data,
               a.enables);
        return 1;
    case S5933_TRANSFER_OFF:        /* the driver has not begun yet */
    case S5933_COUNT_IS_ZERO:       /* all has come */
    case S5933_ABORT_STANDS:        /* the driver has to look at it */
    case S5933_FIFO_NOT_READY:      /* the card has to fill it */
        return 0;
    default:
        end_by("write cycle", 0, a.code);
        return 0;
    }
}

/* Lets the chip and both sides work, for so many cycles at most. */
static void work(unsigned cycles)
{
    interrupts();
    while (cycles-- > 0 && cycle())
        interrupts();
}

/* ---- keeping it over a restart ---- */

/*
 * The controller, which ends in a sum of its own, the memory, both as they
 * are now, and a sum of that sum and the memory, so that both stay together.
 * (A CRC over bytes and their own CRC is the same whatever they are: over all
 * of the file it would not know the controller.)
 */
enum {
    MEMORY_AT = S5933_SAVED_BYTES,
    SUM_AT = MEMORY_AT + 4 * DMA_WORDS,
    FILE_BYTES = SUM_AT + 4
};

static uint32_t sum_of(const uint8_t bytes[FILE_BYTES])
{
    return s5933_crc(bytes + MEMORY_AT - 4, SUM_AT - (MEMORY_AT - 4));
}

/* All of the bytes, as far as the disk; errno says why not. */
static int write_file(const char *name, const uint8_t bytes[FILE_BYTES])
{
    FILE *file = fopen(name, "wb");
    int written;

    if (file == NULL)
        return 0;
    written = fwrite(bytes, 1, FILE_BYTES, file) == FILE_BYTES
           && fflush(file) == 0 && fsync(fileno(file)) == 0;
    return fclose(file) == 0 && written;
}

/* The file gets its name once it is whole: a crash leaves the old or it. */
static int save(const char *name)
{
    uint8_t bytes[FILE_BYTES];
    char other[FILENAME_MAX];

    s5933_save(&chip, bytes);
    for (size_t at = 0; at < DMA_WORDS; at++)
        s5933_put_word(bytes + MEMORY_AT + 4 * at, dma[at]);
    s5933_put_word(bytes + SUM_AT, sum_of(bytes));
    if (snprintf(other, sizeof other, "%s.new", name) >= (int)sizeof other) {
        complain(name, strerror(ENAMETOOLONG));
        return 0;
    }
    if (write_file(other, bytes) && rename(other, name) == 0)
        return 1;
    complain(name, strerror(errno));
    unlink(other);
    return 0;
}

/* Reads the file, and a byte more if it is too long; -1 if it can't. */
static long read_file(const char *name, uint8_t bytes[FILE_BYTES + 1])
{
    FILE *file = fopen(name, "rb");
    long length = -1;

    if (file != NULL) {
        length = (long)fread(bytes, 1, FILE_BYTES + 1, file);
        if (ferror(file))
            length = -1;
    }
    if (length < 0)
        complain(name, strerror(errno));
    if (file != NULL)
        fclose(file);
    return length;
}

static int restore(const char *name)
{
    uint8_t bytes[FILE_BYTES + 1];
    long length = read_file(name, bytes);
    int answer = S5933_NOT_SAVED;

    if (length < 0)
        return 0;
    if (length == FILE_BYTES
        && s5933_get_word(bytes + SUM_AT) == sum_of(bytes))
        answer = s5933_restore(&chip, bytes, S5933_SAVED_BYTES);
    if (answer == S5933_OTHER_VERSION)
        complain(name, "saved by another version of the model");
    else if (answer != S5933_DONE)
        complain(name, "not what this program saves");
    for (size_t at = 0; at < DMA_WORDS && answer == S5933_DONE; at++)
        dma[at] = s5933_get_word(bytes + MEMORY_AT + 4 * at);
    return answer == S5933_DONE;
}

/* ---- the two halves ---- */

/* To the middle of a burst, with two words of the report in the FIFO. */
static void first_half(void)
{
    set_up();
    order(3, DMA_ADDRESS);
    work(4);
}

/* The rest of it, and a report whose address is the driver's mistake. */
static void second_half(void)
{
    inl(IO_BASE + S5933_INTCSR);    /* says how the lines are */
    work(UINT_MAX);
    order(7, DMA_ADDRESS + 4 * DMA_WORDS);
    work(UINT_MAX);
}

int main(int argc, char **argv)
{
    int resume = argc == 3 && strcmp(argv[1], "--resume") == 0;
    const char *name;

    if (!resume && (argc != 2 || argv[1][0] == '-')) {
        fputs("usage: driver [--resume] FILE\n", stderr);
        return 2;
    }
    name = argv[argc - 1];
    if (!resume) {
        s5933_init(&chip);
        first_half();
        if (!save(name))
            return 1;
        memset(&chip, 0xFF, sizeof chip);       /* nothing of it is left */
        memset(dma, 0xFF, sizeof dma);
        printf("saved; from here on all is read from the file\n");
    }
    if (!restore(name))
        return 1;
    second_half();
    if (fflush(stdout) != 0 || ferror(stdout)) {
        complain("standard output", strerror(errno));
        return 1;
    }
    if (reports != REPORTS) {
        fprintf(stderr, "driver: %u of %d reports came\n", reports, REPORTS);
        return 1;
    }
    return 0;
}
