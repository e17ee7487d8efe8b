/*
 * The S5933 model as a station's service and a driver call it. Link libs5933.a, an x86-64 archive with all of the calls, which
 * ./s5933-log --build makes; an installed copy has it by its former name, libstation.a, too. It is for user space: its code uses SSE
 * registers and the red zone below the stack pointer, so it is not for a kernel as it is. Header and archive have to be of one version.
 * The pages of docs/ that are named below an installed copy has in share/doc/s5933.
 */
#ifndef S5933_H
#define S5933_H

#include <stddef.h>
#include <stdint.h>

#ifdef __cplusplus
extern "C" {
#endif

/* The version of the model, as ./s5933-log --version prints it. */
#define S5933_VERSION "1.8"

/* The longest input, in bytes. */
#define S5933_INPUT_MOST 1048576

/* The bytes of output that each line of the input wants. No log line is longer. */
#define S5933_LINE_ROOM 41

/* The sets of labels. */
#define S5933_ENGLISH 0
#define S5933_GERMAN 1

/*
 * What s5933_log returns where it refuses. A number returned means what its own call says: -2 is an input too long here, a window out of
 * form (-S5933_WINDOW_OUT_OF_FORM) from s5933_hex_length, s5933_hex_export and s5933_hex_load; and s5933_step and s5933_restore have
 * other meanings for -1, s5933_restore for -2 too.
 */
#define S5933_NO_ROOM (-1)
#define S5933_INPUT_TOO_LONG (-2)
#define S5933_UNKNOWN_SET (-3)

/* The most words of a window. */
#define S5933_WINDOW_MOST 16384

/*
 * The codes, by their English labels. docs/COMMANDS.md says when each is given. 15 is of the programs alone; 16 to 19 and 24 are of
 * windows as Intel HEX, where s5933_hex_length, s5933_hex_export and s5933_hex_load return a code with a minus, as -S5933_WRONG_SUM.
 */
enum {
    S5933_DONE = 0,
    S5933_STATE_OUT_OF_FORM = 1,
    S5933_WINDOW_OUT_OF_FORM = 2,
    S5933_UNKNOWN_STEP = 3,
    S5933_UNKNOWN_OFFSET = 4,
    S5933_BAD_ENABLES = 5,
    S5933_PART_FIFO_ACCESS = 6,
    S5933_READ_ONLY_REGISTER = 7,
    S5933_FIFO_FULL_OR_EMPTY = 8,
    S5933_TRANSFER_OFF = 9,
    S5933_COUNT_IS_ZERO = 10,
    S5933_ABORT_STANDS = 11,
    S5933_FIFO_NOT_READY = 12,
    S5933_NO_MEMORY_THERE = 13,
    S5933_NOT_A_FRAME_LINE = 14,
    S5933_UNKNOWN_LABEL_SET = 15,
    S5933_NOT_A_HEX_RECORD = 16,
    S5933_WRONG_SUM = 17,
    S5933_OUTSIDE_THE_WINDOW = 18,
    S5933_NO_END_OR_NOT_LAST = 19,
    S5933_OUTPUT_TOO_SHORT = 24
};

/* The fields of a log line: where each begins, and its digits. Behind the space stands the label, as far as the LF. */
enum {
    S5933_CODE_AT = 0, S5933_CODE_DIGITS = 2,
    S5933_ADDRESS_AT = 2, S5933_ADDRESS_DIGITS = 8,
    S5933_DATA_AT = 10, S5933_DATA_DIGITS = 8,
    S5933_ENABLES_AT = 18, S5933_ENABLES_DIGITS = 1,
    S5933_INTERRUPT_AT = 19, S5933_INTERRUPT_DIGITS = 1,
    S5933_ADDON_INTERRUPT_AT = 20, S5933_ADDON_INTERRUPT_DIGITS = 1,
    S5933_SPACE_AT = 21,
    S5933_LABEL_AT = 22
};

/* The digits of a frame line, as printf writes them: "%02X%02X%X%08X" of kind, offset, enables and data. */
enum { S5933_FRAME_DIGITS = 13 };

/* The kinds of frames. */
enum {
    S5933_PCI_READ = 0,
    S5933_PCI_WRITE = 1,
    S5933_ADDON_READ = 2,
    S5933_ADDON_WRITE = 3,
    S5933_WRITE_CYCLE = 4,
    S5933_READ_CYCLE = 5,
    S5933_CHIP_RESET = 6
};

/*
 * The offsets, by the names of docs/REGISTERS.md. The Add-On side has the mailboxes, the FIFO port and MBEF, and where the PCI side
 * has INTCSR and MCSR two registers of its own, AINT and AGCSTS.
 */
enum {
    S5933_OMB1 = 0x00, S5933_OMB2 = 0x04, S5933_OMB3 = 0x08, S5933_OMB4 = 0x0C,
    S5933_IMB1 = 0x10, S5933_IMB2 = 0x14, S5933_IMB3 = 0x18, S5933_IMB4 = 0x1C,
    S5933_FIFO = 0x20,
    S5933_MWAR = 0x24, S5933_MWTC = 0x28,
    S5933_MRAR = 0x2C, S5933_MRTC = 0x30,
    S5933_MBEF = 0x34,
    S5933_INTCSR = 0x38, S5933_AINT = 0x38,
    S5933_MCSR = 0x3C, S5933_AGCSTS = 0x3C
};

/*
 * The bits of INTCSR, MCSR and AINT, behind each its short name in docs/REGISTERS.md. Of INTCSR and AINT the flags, 16 to 21, are
 * cleared by writing a one; the names that end in AT are the lowest bits of numbers of two: a mailbox, 0 for the first, and its byte.
 * Outgoing and incoming are said from the host's side, in AINT too. AGCSTS has MCSR's bits of the FIFOs at other places.
 */
enum {
    S5933_INTCSR_LINE = 1 << 23,                        /* LIN */
    S5933_INTCSR_TARGET_ABORT = 1 << 21,                /* TAB */
    S5933_INTCSR_MASTER_ABORT = 1 << 20,                /* MAB */
    S5933_INTCSR_READ_COUNT_ZERO = 1 << 19,             /* RCF */
    S5933_INTCSR_WRITE_COUNT_ZERO = 1 << 18,            /* WCF */
    S5933_INTCSR_INCOMING_EVENT = 1 << 17,              /* INF */
    S5933_INTCSR_OUTGOING_EVENT = 1 << 16,              /* OUF */
    S5933_INTCSR_READ_COUNT_ENABLE = 1 << 15,           /* RCE */
    S5933_INTCSR_WRITE_COUNT_ENABLE = 1 << 14,          /* WCE */
    S5933_INTCSR_INCOMING_ENABLE = 1 << 12,             /* INE */
    S5933_INTCSR_INCOMING_MAILBOX_AT = 10,              /* INBOX */
    S5933_INTCSR_INCOMING_BYTE_AT = 8,                  /* INBYTE */
    S5933_INTCSR_OUTGOING_ENABLE = 1 << 4,              /* OUE */
    S5933_INTCSR_OUTGOING_MAILBOX_AT = 2,               /* OUTBOX */
    S5933_INTCSR_OUTGOING_BYTE_AT = 0,                  /* OUTBYTE */

    S5933_MCSR_CLEAR_MARKS = 1 << 27,                   /* CMB */
    S5933_MCSR_CLEAR_ADDON_TO_PCI = 1 << 26,            /* CAP */
    S5933_MCSR_CLEAR_PCI_TO_ADDON = 1 << 25,            /* CPA */
    S5933_MCSR_READ_CYCLES = 1 << 14,                   /* REN */
    S5933_MCSR_READ_AT_FOUR = 1 << 13,                  /* RF4 */
    S5933_MCSR_WRITE_CYCLES = 1 << 10,                  /* WEN */
    S5933_MCSR_WRITE_AT_FOUR = 1 << 9,                  /* WF4 */
    S5933_MCSR_WRITE_COUNT_ZERO = 1 << 7,               /* WCZ */
    S5933_MCSR_READ_COUNT_ZERO = 1 << 6,                /* RCZ */
    S5933_MCSR_ADDON_TO_PCI_EMPTY = 1 << 5,             /* APE */
    S5933_MCSR_ADDON_TO_PCI_FOUR_HELD = 1 << 4,         /* AP4 */
    S5933_MCSR_ADDON_TO_PCI_FULL = 1 << 3,              /* APF */
    S5933_MCSR_PCI_TO_ADDON_EMPTY = 1 << 2,             /* PAE */
    S5933_MCSR_PCI_TO_ADDON_FOUR_FREE = 1 << 1,         /* PA4 */
    S5933_MCSR_PCI_TO_ADDON_FULL = 1 << 0,              /* PAF */

    S5933_AINT_LINE = 1 << 23,                          /* ALN */
    S5933_AINT_ABORT = 1 << 21,                         /* ABT */
    S5933_AINT_READ_COUNT_ZERO = 1 << 19,               /* ARF */
    S5933_AINT_WRITE_COUNT_ZERO = 1 << 18,              /* AWF */
    S5933_AINT_INCOMING_EVENT = 1 << 17,                /* AIF */
    S5933_AINT_OUTGOING_EVENT = 1 << 16,                /* AOF */
    S5933_AINT_READ_COUNT_ENABLE = 1 << 15,             /* ARE */
    S5933_AINT_WRITE_COUNT_ENABLE = 1 << 14,            /* AWE */
    S5933_AINT_INCOMING_ENABLE = 1 << 12,               /* AIE */
    S5933_AINT_INCOMING_MAILBOX_AT = 10,                /* AIBOX */
    S5933_AINT_INCOMING_BYTE_AT = 8,                    /* AIBYTE */
    S5933_AINT_OUTGOING_ENABLE = 1 << 4,                /* AOE */
    S5933_AINT_OUTGOING_MAILBOX_AT = 2,                 /* AOBOX */
    S5933_AINT_OUTGOING_BYTE_AT = 0                     /* AOBYTE */
};

/*
 * The bytes of output that an input wants: S5933_LINE_ROOM for each of its lines. For empty input that is 0, and malloc(0) may be
 * null, which s5933_log must not be given.
 */
static inline size_t s5933_room(const uint8_t *input, size_t input_length)
{
    size_t room = 0;

    for (size_t at = 0; at < input_length; at++)
        if (input[at] == '\n' || at + 1 == input_length)
            room += S5933_LINE_ROOM;
    return room;
}

/*
 * The number in a field of a log line, such as s5933_number(line, S5933_CODE_AT, S5933_CODE_DIGITS); -1 if one of the digits is
 * none. It takes at most 15 digits, for the number has to fit into an int64_t; no field has more than 8. It reads no byte behind them.
 */
static inline int64_t s5933_number(const uint8_t *line, size_t at, size_t digits)
{
    int64_t number = 0;

    for (size_t i = at; i < at + digits; i++) {
        if (line[i] >= '0' && line[i] <= '9')
            number = number * 16 + (line[i] - '0');
        else if (line[i] >= 'A' && line[i] <= 'F')
            number = number * 16 + (line[i] - 'A' + 10);
        else
            return -1;
    }
    return number;
}

/*
 * Runs the lines of the input, one after the other, on a controller as it is after reset, with a host memory of 4,096 words, all
 * zero, at address 0, and writes one log line for each from the output's start.
 *
 * LF ends a line; what stands behind the last LF is a line too, unless it is nothing. A line of S5933_FRAME_DIGITS digits,
 * hexadecimal and upper-case, is a step; any other line is answered with code 14 and makes no step. The input has no set line,
 * unlike that of the log program: the set of labels is the last argument, S5933_ENGLISH or S5933_GERMAN. It chooses the labels and
 * nothing else.
 *
 * A log line has the fields above, in digits of the same kind, a space, the label of the code, and LF. The code is the key; the
 * label is for people. The log is not ended by a NUL.
 *
 * Returns, the first that applies,
 *   S5933_INPUT_TOO_LONG (-2) if the input is longer than S5933_INPUT_MOST bytes;
 *   S5933_UNKNOWN_SET (-3) if the set is neither S5933_ENGLISH nor S5933_GERMAN, for empty input too;
 *   S5933_NO_ROOM (-1) if the output is shorter than s5933_room says;
 *   the number of bytes of the log, 0 for empty input.
 *
 * No byte of the output is written where it refuses, and none past the log. The input is not changed. Calls are independent of
 * each other: nothing is kept between them, and threads may call at the same time, each with an output of its own. A call
 * uses at most 20 KiB of stack, as measured.
 *
 * So an input cannot be cut in two calls: the second would begin from reset. A station that goes on past S5933_INPUT_MOST bytes
 * makes its steps on a controller that it keeps (s5933_step, below; examples/driver), or keeps the log program as a child and talks
 * to it over pipes (docs/C.md, "For weeks"; examples/child). Neither has a limit.
 *
 * The caller owes what C cannot say: the two pointers are not null, not even for a length of 0, each has as many bytes as its
 * length says, and the output overlaps neither the input nor anything that is in use elsewhere during the call.
 */
int64_t s5933_log(const uint8_t *input, size_t input_length, uint8_t *output, size_t output_length, uint32_t set);

/*
 * A window, a run of 32-bit words from a start address on, as Intel HEX: records of the types 00 (bytes), 01 (the end) and 04 (the upper 16
 * bits of the addresses that follow), each a line of upper-case digits that begins with a colon and is ended by LF, its bytes, the last
 * among them, summing to 0 modulo 256. A word's lowest byte stands at its own address, the next one above. A window may wrap: past FFFFFFFC
 * it goes on at 0.
 *
 * A window is out of form if its start is no multiple of 4 or it has more than S5933_WINDOW_MOST words. The three calls look at that first.
 * A refusal is returned as its code with a minus. Calls are independent of each other, and threads may call at the same time, each with
 * words and an output that no other call writes. A call uses at most 1 KiB of stack, as measured. The caller owes what C cannot say, as
 * above: no null pointer, not even for a length of 0, as many words or bytes as each length says, words that are aligned as uint32_t is,
 * and no overlap with what is written.
 */

/*
 * How many bytes the export of so many words from a start on has, whatever the words are; or -S5933_WINDOW_OUT_OF_FORM.
 */
int64_t s5933_hex_length(size_t count, uint32_t start);

/*
 * Writes the export of a window from the output's start: a record 04 first and wherever the upper 16 bits change, records 00 of 16 bytes,
 * shorter only before such a change and at the end, and last :00000001FF. For no words that is the first record and the last. It is not
 * ended by a NUL.
 *
 * Returns, the first that applies,
 *   -S5933_WINDOW_OUT_OF_FORM (-2);
 *   -S5933_OUTPUT_TOO_SHORT (-24) if the output is shorter than s5933_hex_length says;
 *   the number of bytes written.
 *
 * No byte of the output is written where it refuses, and none past the text. The words are not changed.
 */
int64_t s5933_hex_export(const uint32_t *words, size_t count, uint32_t start, uint8_t *output, size_t output_length);

/*
 * Loads a text into a window. Records come in any order and with any number of bytes, none too; before the first record 04 the upper 16
 * bits are 0; bytes past offset FFFF go on at the next address, after FFFFFFFF at 0. Where two records say a byte, the later holds; bytes
 * that no record says stay as they are. The whole text is checked before the first word is stored.
 *
 * Returns, the first that applies, and of the codes from 16 on the one of the first record that has one,
 *   -S5933_WINDOW_OUT_OF_FORM (-2);
 *   -S5933_NOT_A_HEX_RECORD (-16) for anything that is no record of these types: an empty line, lower case, CR, another type, a record 04
 *     of other than 2 bytes, a record 01 of any, either at another offset than 0, bytes that no LF ends;
 *   -S5933_WRONG_SUM (-17);
 *   -S5933_OUTSIDE_THE_WINDOW (-18) if a byte of the record lies outside the window;
 *   -S5933_NO_END_OR_NOT_LAST (-19) if the text ends without a record 01, or any byte stands behind it, which is read no further;
 *   0 (S5933_DONE), and the words hold what the text says.
 *
 * No word is changed where it refuses.
 */
int64_t s5933_hex_load(uint32_t *words, size_t count, uint32_t start, const uint8_t *text, size_t text_length);

/*
 * A controller that the caller keeps, for a driver that makes one access at a time. It is words in the caller's memory. Zeros are a
 * controller as it is after reset: a static one is ready, and s5933_init makes one of any words.
 *
 * The words and the host memory are all there is: nothing else is carried from call to call. Between two calls a controller may be
 * copied, moved, saved and restored (s5933_save). In this version its words are, in this order: the 8 mailboxes, by offset; the 8
 * places of the FIFO from PCI, and the 8 of the one from the Add-On; the marks of offset 34; INTCSR, MCSR and AINT, the bits held;
 * read address, read count, head and fill of the FIFO from PCI; write address, write count, head and fill of the FIFO from the
 * Add-On; the right of read cycles and that of write cycles to a burst, 0 or 1. The head is the place of the front word, modulo 8.
 */
enum { S5933_CONTROLLER_WORDS = 38 };

typedef struct s5933_controller {
    uint32_t word[S5933_CONTROLLER_WORDS];
} s5933_controller;

/* A host memory: so many words, which are the caller's, from a start address on. It may wrap. */
typedef struct s5933_window {
    uint32_t *words;
    size_t count;
    uint32_t start;
} s5933_window;

/*
 * What a step answers: what its log line has, and the marks that it changed, which no log shows: of a done access of a mailbox those
 * bits of offset 34 that are others after it, of any other step none. The lines are the host's and the card's, 0 or 1.
 */
typedef struct s5933_answer {
    uint32_t code;
    uint32_t address;
    uint32_t data;
    uint32_t enables;
    uint32_t line;
    uint32_t addon_line;
    uint32_t changed;
} s5933_answer;

enum { S5933_ANSWER_WORDS = 7 };

/* What s5933_step returns for an answer of another length. */
#define S5933_NO_ANSWER (-1)

/*
 * One step on a controller, over a host memory of so many words from a start on: what a frame of these four numbers does, and for
 * numbers that no frame can say what their codes tell. It leaves the answer in seven words, in the order of s5933_answer.
 *
 * Returns, whatever words, lengths and numbers it is given, the first that applies,
 *   S5933_NO_ANSWER (-1) if the answer has not S5933_ANSWER_WORDS words; nothing is touched;
 *   S5933_STATE_OUT_OF_FORM (1) if the words stand for no controller, for there are not S5933_CONTROLLER_WORDS of them or a right is
 *     above 1, or for one that is out of form; the other six words of the answer are 0;
 *   the code of the step, the answer's first word: S5933_DONE (0), or S5933_WINDOW_OUT_OF_FORM (2) to S5933_NO_MEMORY_THERE (13).
 *
 * A code comes WITHOUT a minus, unlike from the calls on windows: a test for less than 0 finds S5933_NO_ANSWER alone. Compare with
 * S5933_DONE.
 *
 * What to do by code:
 *   S5933_FIFO_FULL_OR_EMPTY (8), S5933_FIFO_NOT_READY (12): nothing was taken or stored; try again later;
 *   S5933_TRANSFER_OFF (9), S5933_COUNT_IS_ZERO (10), S5933_ABORT_STANDS (11): no cycle before the driver has written a register;
 *   S5933_NO_MEMORY_THERE (13): a write cycle's word is still in the FIFO, and both abort bits are set, S5933_INTCSR_MASTER_ABORT and
 *     S5933_AINT_ABORT. Mend the address, clear INTCSR 20 by writing a one, and go on; the card's bit stops no cycle;
 *   S5933_PART_FIFO_ACCESS (6): an access of the FIFO port of fewer than four bytes, which is never done; this one and the other codes
 *     to 7 are mistakes of the caller.
 *
 * A refusal, any code but S5933_DONE and S5933_NO_MEMORY_THERE, leaves every word of the controller and of the memory as it was. The
 * memory is changed by a done write cycle alone, in one word. A done read may store into the controller too (marks, AINT, a FIFO's
 * fill), so its words cannot be const.
 *
 * Threads may call at the same time, each with a controller, a memory and an answer that no other call has meanwhile: two may not use
 * one controller at the same time, not even to read. A call uses at most 1 KiB of stack, as measured. The caller owes what C cannot
 * say, as above: no null pointer, not even for a length of 0, as many words as each length says, aligned as uint32_t is, no overlap of
 * controller, memory and answer, and that nothing else touches them during the call, its own threads on a buffer there included.
 */
int64_t s5933_step(uint32_t *controller, size_t controller_words, uint32_t *memory, size_t memory_words, uint32_t start, uint32_t kind,
                   uint32_t offset, uint32_t enables, uint32_t data, uint32_t *answer, size_t answer_words);

/* A controller as it is after reset, whatever its words were; a step of kind S5933_CHIP_RESET refuses one that is out of form. */
static inline void s5933_init(s5933_controller *controller)
{
    for (size_t at = 0; at < S5933_CONTROLLER_WORDS; at++)
        controller->word[at] = 0;
}

/*
 * The step with the types above. Without a window (NULL) the memory has no word, and a cycle that comes to its address is answered by
 * code 13. That changes the controller: both abort bits are set, and both rights end. A window counts for every kind: one out of form
 * is code 2. With no words its pointer may be null.
 */
static inline s5933_answer s5933_do(s5933_controller *controller, const s5933_window *window, uint32_t kind, uint32_t offset,
                                    uint32_t enables, uint32_t data)
{
    uint32_t none = 0;
    size_t count = window != NULL ? window->count : 0;
    uint32_t *words = count != 0 ? window->words : &none;
    uint32_t word[S5933_ANSWER_WORDS];
    s5933_answer answer;

    s5933_step(controller->word, S5933_CONTROLLER_WORDS, words, count, window != NULL ? window->start : 0, kind, offset, enables, data,
               word, S5933_ANSWER_WORDS);
    answer.code = word[0];
    answer.address = word[1];
    answer.data = word[2];
    answer.enables = word[3];
    answer.line = word[4];
    answer.addon_line = word[5];
    answer.changed = word[6];
    return answer;
}

/* The kinds of steps by name. Of a read the data does not count, of cycles and a reset the kind alone does. */
static inline s5933_answer s5933_pci_read(s5933_controller *controller, const s5933_window *window, uint32_t offset, uint32_t enables)
{
    return s5933_do(controller, window, S5933_PCI_READ, offset, enables, 0);
}

static inline s5933_answer s5933_pci_write(s5933_controller *controller, const s5933_window *window, uint32_t offset, uint32_t enables,
                                           uint32_t data)
{
    return s5933_do(controller, window, S5933_PCI_WRITE, offset, enables, data);
}

static inline s5933_answer s5933_addon_read(s5933_controller *controller, const s5933_window *window, uint32_t offset, uint32_t enables)
{
    return s5933_do(controller, window, S5933_ADDON_READ, offset, enables, 0);
}

static inline s5933_answer s5933_addon_write(s5933_controller *controller, const s5933_window *window, uint32_t offset, uint32_t enables,
                                             uint32_t data)
{
    return s5933_do(controller, window, S5933_ADDON_WRITE, offset, enables, data);
}

static inline s5933_answer s5933_write_cycle(s5933_controller *controller, const s5933_window *window)
{
    return s5933_do(controller, window, S5933_WRITE_CYCLE, 0, 0, 0);
}

static inline s5933_answer s5933_read_cycle(s5933_controller *controller, const s5933_window *window)
{
    return s5933_do(controller, window, S5933_READ_CYCLE, 0, 0, 0);
}

static inline s5933_answer s5933_chip_reset(s5933_controller *controller, const s5933_window *window)
{
    return s5933_do(controller, window, S5933_CHIP_RESET, 0, 0, 0);
}

/*
 * A controller as bytes, to be taken up again after a restart, on any machine: S5933_SAVED_MAGIC, in 8 bytes the text of
 * S5933_VERSION with zeros behind it, the controller's words, and the CRC-32 of all these bytes, as gzip has it. Each word is 4 bytes,
 * the lowest first.
 *
 * The host memory is the caller's to keep beside it, as it was between the same two calls; it has to be the same again, and so has its
 * start address. A sum over both is to be of the last 4 of these bytes and the memory: a CRC-32 over all of them is the same for every
 * controller, since they end in their own.
 *
 * Only the version that saved a controller restores it: another one may answer steps otherwise, and so may have left a state that
 * this one cannot reach. The words that are still in a FIFO then are lost: let the FIFOs run empty before an upgrade. The version that
 * is saved is this header's; that the archive's is the same, the caller owes.
 */
#define S5933_SAVED_MAGIC UINT32_C(0x33393553)
enum { S5933_SAVED_VERSION_BYTES = 8, S5933_SAVED_BYTES = 4 + S5933_SAVED_VERSION_BYTES + 4 * S5933_CONTROLLER_WORDS + 4 };

/* Does not compile if the version's text is longer than that. */
typedef char s5933_version_is_saved_whole[sizeof S5933_VERSION - 1 <= S5933_SAVED_VERSION_BYTES ? 1 : -1];

/* What s5933_restore returns where it refuses. */
#define S5933_NOT_SAVED (-1)
#define S5933_OTHER_VERSION (-2)

static inline void s5933_put_word(uint8_t *bytes, uint32_t word)
{
    for (unsigned at = 0; at < 4; at++)
        bytes[at] = (uint8_t)(word >> 8 * at & 0xFF);
}

static inline uint32_t s5933_get_word(const uint8_t *bytes)
{
    return bytes[0] | (uint32_t)bytes[1] << 8 | (uint32_t)bytes[2] << 16 | (uint32_t)bytes[3] << 24;
}

/* The CRC-32 of so many bytes. */
static inline uint32_t s5933_crc(const uint8_t *bytes, size_t length)
{
    uint32_t crc = 0xFFFFFFFF;

    for (size_t at = 0; at < length; at++) {
        crc ^= bytes[at];
        for (unsigned bit = 0; bit < 8; bit++)
            crc = crc >> 1 ^ (UINT32_C(0xEDB88320) & (0 - (crc & 1)));
    }
    return ~crc;
}

/* A byte of the version's text as it is saved. */
static inline uint8_t s5933_version_byte(size_t at)
{
    return (uint8_t)(at < sizeof S5933_VERSION ? S5933_VERSION[at] : 0);
}

static inline void s5933_save(const s5933_controller *controller, uint8_t bytes[S5933_SAVED_BYTES])
{
    s5933_put_word(bytes, S5933_SAVED_MAGIC);
    for (size_t at = 0; at < S5933_SAVED_VERSION_BYTES; at++)
        bytes[4 + at] = s5933_version_byte(at);
    for (size_t at = 0; at < S5933_CONTROLLER_WORDS; at++)
        s5933_put_word(bytes + 4 + S5933_SAVED_VERSION_BYTES + 4 * at, controller->word[at]);
    s5933_put_word(bytes + S5933_SAVED_BYTES - 4, s5933_crc(bytes, S5933_SAVED_BYTES - 4));
}

/*
 * Returns, the first that applies,
 *   S5933_NOT_SAVED (-1) if the bytes are too few, or have another magic number, or another sum at their end than theirs;
 *   S5933_OTHER_VERSION (-2) if another version saved them, be its controller longer or shorter;
 *   S5933_NOT_SAVED (-1) if they are not S5933_SAVED_BYTES;
 *   0 (S5933_DONE), and the controller is the one that was saved, word for word. If that was out of form, it is so again, and every step
 *     on it is answered by code 1.
 *
 * No word is changed where it refuses.
 */
static inline int s5933_restore(s5933_controller *controller, const uint8_t *bytes, size_t length)
{
    if (length < 4 + S5933_SAVED_VERSION_BYTES + 4 || s5933_get_word(bytes) != S5933_SAVED_MAGIC
        || s5933_get_word(bytes + length - 4) != s5933_crc(bytes, length - 4))
        return S5933_NOT_SAVED;
    for (size_t at = 0; at < S5933_SAVED_VERSION_BYTES; at++)
        if (bytes[4 + at] != s5933_version_byte(at))
            return S5933_OTHER_VERSION;
    if (length != S5933_SAVED_BYTES)
        return S5933_NOT_SAVED;
    for (size_t at = 0; at < S5933_CONTROLLER_WORDS; at++)
        controller->word[at] = s5933_get_word(bytes + 4 + S5933_SAVED_VERSION_BYTES + 4 * at);
    return S5933_DONE;
}

#ifdef __cplusplus
}
#endif

#endif
