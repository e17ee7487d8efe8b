/* step.c: calls of s5933_step, of one kind a row.
 *
 *   step answers     prints the answers to some turns of each row, the
 *                    controller and the memory after them, and what every
 *                    register then shows
 *   step times       prints a line for each row: its name, a tab, and the
 *                    nanoseconds of a turn
 *   step ROW TURNS   makes so many turns of a row, counted from 0, and prints
 *                    nothing: for a counter of instructions
 *
 * Linked with the archive it is of the archive's call, linked with
 * step_second.c of the second program's: the loops are the same. A turn is
 * one call, or the two that the row names. It ends with status 1 if a turn's
 * last call answers another code than it should. */
#define _POSIX_C_SOURCE 200809L
#include "s5933.h"

#include <stdio.h>
#include <stdlib.h>
#include <string.h>
#include <time.h>

enum {
    MEMORY_WORDS = 4096, SHOWN_WORDS = 24, SHOWN_TURNS = 20,
    TURNS = 1000, LEAST = 20000000, ALL = 15, WORD = 0x12345678
};

static uint32_t controller[S5933_CONTROLLER_WORDS], memory[MEMORY_WORDS];
static uint32_t first[S5933_ANSWER_WORDS], last[S5933_ANSWER_WORDS];

static inline int64_t step(uint32_t *answer, uint32_t kind, uint32_t offset,
                           uint32_t enables, uint32_t data)
{
    return s5933_step(controller, S5933_CONTROLLER_WORDS, memory,
                      MEMORY_WORDS, 0, kind, offset, enables, data, answer,
                      S5933_ANSWER_WORDS);
}

/* A function that makes turns; it returns the code of the last call. */
#define ROW(name, turn) \
    static int64_t name(long turns) \
    { \
        int64_t code = 0; \
        for (long i = 0; i < turns; i++) \
            code = (turn); \
        return code; \
    }

ROW(read_intcsr, step(last, S5933_PCI_READ, S5933_INTCSR, ALL, 0))
ROW(read_mailbox, step(last, S5933_PCI_READ, S5933_IMB1, ALL, 0))
ROW(read_mcsr, step(last, S5933_PCI_READ, S5933_MCSR, ALL, 0))
ROW(write_mailbox, step(last, S5933_PCI_WRITE, S5933_OMB1, ALL, WORD))
ROW(write_intcsr, step(last, S5933_PCI_WRITE, S5933_INTCSR, ALL, WORD))
ROW(addon_status, step(last, S5933_ADDON_READ, S5933_MBEF, ALL, 0))
ROW(addon_mailbox, step(last, S5933_ADDON_WRITE, S5933_IMB1, ALL, WORD))
ROW(port_and_port,
    (step(first, S5933_ADDON_WRITE, S5933_FIFO, ALL, WORD),
     step(last, S5933_PCI_READ, S5933_FIFO, ALL, 0)))
ROW(port_and_cycle,
    (step(first, S5933_ADDON_WRITE, S5933_FIFO, ALL, WORD),
     step(last, S5933_WRITE_CYCLE, 0, 0, 0)))
ROW(refused_read, step(last, S5933_PCI_READ, S5933_FIFO, ALL, 0))
ROW(chip_reset, step(last, S5933_CHIP_RESET, 0, 0, 0))

static const struct row {
    const char *name;
    int64_t (*turns)(long turns);
    int64_t code;
} rows[] = {
    { "PCI read, INTCSR", read_intcsr, S5933_DONE },
    { "PCI read, mailbox", read_mailbox, S5933_DONE },
    { "PCI read, MCSR", read_mcsr, S5933_DONE },
    { "PCI write, mailbox", write_mailbox, S5933_DONE },
    { "PCI write, INTCSR", write_intcsr, S5933_DONE },
    { "Add-On read, status", addon_status, S5933_DONE },
    { "Add-On write, mailbox", addon_mailbox, S5933_DONE },
    { "Add-On port write, PCI port read", port_and_port, S5933_DONE },
    { "Add-On port write, write cycle", port_and_cycle, S5933_DONE },
    { "refused: PCI port read, FIFO empty", refused_read,
      S5933_FIFO_FULL_OR_EMPTY },
    { "chip reset", chip_reset, S5933_DONE }
};

enum { ROWS = sizeof rows / sizeof *rows };

static void fail(const char *what)
{
    fprintf(stderr, "step: %s\n", what);
    exit(1);
}

/* A controller as after reset, on which write cycles are on and have a
 * count and memory for more turns than any row makes. */
static void begin(void)
{
    memset(controller, 0, sizeof controller);
    memset(memory, 0, sizeof memory);
    memset(first, 0, sizeof first);
    step(last, S5933_PCI_WRITE, S5933_MCSR, ALL, UINT32_C(1) << 10);
    step(last, S5933_PCI_WRITE, S5933_MWTC, ALL, 4 * MEMORY_WORDS);
}

static void make_turns(const struct row *row, long turns)
{
    if (row->turns(turns) != row->code)
        fail(row->name);
}

static void print_words(const uint32_t *words, int count)
{
    for (int i = 0; i < count; i++)
        printf("%08X%c", (unsigned)words[i], i + 1 < count ? ' ' : '\n');
}

/* The controller's words, but for where in its ring a FIFO has its words, and
 * the beginning of the memory. */
static void print_state(void)
{
    print_words(controller, 8);         /* the mailboxes */
    print_words(controller + 24, 6);    /* marks to the read count */
    print_words(controller + 31, 3);    /* a fill to the write count */
    print_words(controller + 35, 3);    /* a fill and the rights */
    print_words(memory, SHOWN_WORDS);
}

/* What a read of each register answers, from either side. */
static void print_registers(void)
{
    for (uint32_t offset = 0; offset <= S5933_MCSR; offset += 4) {
        step(first, S5933_PCI_READ, offset, ALL, 0);
        step(last, S5933_ADDON_READ, offset, ALL, 0);
        print_words(first, S5933_ANSWER_WORDS);
        print_words(last, S5933_ANSWER_WORDS);
    }
}

static void print_answers(void)
{
    for (int i = 0; i < ROWS; i++) {
        puts(rows[i].name);
        begin();
        for (int k = 0; k < SHOWN_TURNS; k++) {
            make_turns(&rows[i], 1);
            print_words(first, S5933_ANSWER_WORDS);
            print_words(last, S5933_ANSWER_WORDS);
        }
        print_state();
        print_registers();
    }
}

static long long nanoseconds(void)
{
    struct timespec t;

    clock_gettime(CLOCK_PROCESS_CPUTIME_ID, &t);
    return t.tv_sec * 1000000000LL + t.tv_nsec;
}

/* Of as many turns as take a while. */
static double time_of_turn(const struct row *row)
{
    long long spent = 0, turns = 0;

    do {
        long long start;

        begin();
        start = nanoseconds();
        make_turns(row, TURNS);
        spent += nanoseconds() - start;
        turns += TURNS;
    } while (spent < LEAST);
    return (double)spent / (double)turns;
}

int main(int argc, char **argv)
{
    long row = argc == 3 ? strtol(argv[1], NULL, 10) : -1;

    if (argc == 2 && strcmp(argv[1], "answers") == 0) {
        print_answers();
    } else if (argc == 2 && strcmp(argv[1], "times") == 0) {
        for (int i = 0; i < ROWS; i++)
            printf("%s\t%.1f\n", rows[i].name, time_of_turn(&rows[i]));
    } else if (row >= 0 && row < ROWS) {
        begin();
        make_turns(&rows[row], strtol(argv[2], NULL, 10));
    } else {
        fail("usage: step answers | times | ROW TURNS");
    }
    return 0;
}
