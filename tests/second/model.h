/* model.h: the controller of documents 01 and 02.
 * Part of the second program, written from documents 01 and 02 alone. */
#ifndef MODEL_H
#define MODEL_H

#include <stdbool.h>
#include <stdint.h>

/* Kinds of step; every number above CHIP_RESET is unknown. */
enum {
    PCI_READ, PCI_WRITE, ADDON_READ, ADDON_WRITE,
    WRITE_CYCLE, READ_CYCLE, CHIP_RESET
};

/* Codes of an answer. */
enum {
    DONE, STATE_OUT_OF_FORM, WINDOW_OUT_OF_FORM, UNKNOWN_STEP,
    UNKNOWN_OFFSET, BAD_ENABLES, PART_FIFO_ACCESS, READ_ONLY_REGISTER,
    FIFO_FULL_OR_EMPTY, TRANSFER_OFF, COUNT_IS_ZERO, ABORT_STANDS,
    FIFO_NOT_READY, NO_MEMORY_THERE, NOT_A_FRAME_LINE, UNKNOWN_LABEL_SET,
    CODES
};

/* Sets of labels, by their numbers; every number from SETS on is unknown. */
enum { ENGLISH, GERMAN, SETS };

/* Registers by place: offset divided by 4. Two places have one register
 * on the PCI side and another on the Add-On side. */
enum {
    FIFO_PORT = 8, WRITE_ADDRESS, WRITE_COUNT, READ_ADDRESS, READ_COUNT,
    MAIL_STATUS, INTCSR, MCSR, REGISTERS,
    AINT = INTCSR, AGCSTS = MCSR
};

enum { FIFO_WORDS = 8, MAILBOXES = 8, WINDOW_WORDS_MAX = 16384 };

/* One bit for each place: the registers of each side, and those that
 * the side may only read. */
#define PCI_TABLE      0xFFFFu
#define PCI_READ_ONLY  0x20F0u
#define ADDON_TABLE    0xE1FFu
#define ADDON_READ_ONLY 0x200Fu

struct fifo {
    uint32_t fill;              /* words held; above 8 is out of form */
    uint32_t word[FIFO_WORDS];  /* front first; free places don't count */
};

struct controller {
    uint32_t mail[MAILBOXES];   /* 0 to 3 outgoing, 4 to 7 incoming */
    uint32_t marks;             /* the 32 status bits, one is full */
    struct fifo to_addon;       /* the PCI-to-Add-On FIFO */
    struct fifo to_pci;         /* the Add-On-to-PCI FIFO */
    uint32_t write_address, write_count;
    uint32_t read_address, read_count;
    uint32_t intcsr;            /* bits held, without the line */
    uint32_t mcsr;              /* bits held, without the status */
    uint32_t aint;              /* bits held, without the Add-On line */
    uint32_t write_right;       /* 1: a burst of write cycles is under way */
    uint32_t read_right;        /* the same of read cycles */
};

/* Lent host memory; words may be null if count is zero. */
struct window {
    uint32_t *words;
    uint32_t start;
    uint32_t count;
};

struct step {
    uint32_t kind, offset, enables, data;
};

struct answer {
    uint32_t code, address, data, enables, line, addon_line;
    uint32_t changed;           /* marks that changed; not in the log */
};

/* The label of each code in each set. */
extern const char *const model_label[SETS][CODES];

/* Puts the controller in the state after a chip reset. */
void model_reset(struct controller *c);

/* The interrupt line of the bits held, 0 or 1. */
uint32_t model_line(const struct controller *c);

/* The Add-On's interrupt line of the bits held, 0 or 1. */
uint32_t model_addon_line(const struct controller *c);

/* Whether two states are the same; of a FIFO the words held count. */
bool model_same(const struct controller *a, const struct controller *b);

/* Makes one step. Gives codes 0 to 13 for any numbers and any state. */
struct answer model_step(struct controller *c, const struct window *w,
                         const struct step *s);

#endif
