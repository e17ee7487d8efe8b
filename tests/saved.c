/* saved.c: s5933_save and s5933_restore.
 *
 *   saved FILE FRAMES LOG [FRAMES LOG]...
 *
 * Runs each FRAMES, which begins with a set line, by s5933_step; before each
 * step the controller is saved, spoilt and restored. The answers are those
 * of LOG. Then: bytes that differ from saved ones in one bit or in length,
 * and those of other versions, are refused and leave the controller. What is
 * saved of a controller of the words 1 to 38 goes into FILE; it is out of
 * form, and so once it is restored. Last, what the header says of steps that
 * change the controller: code 13 without a window, and reads. */
#include "guard.h"
#include "steps.h"

#include <stdio.h>
#include <stdlib.h>
#include <string.h>
#include <sys/mman.h>

enum { MEMORY_WORDS = 4096, LINE_SIZE = 128, LONGER = 64,
       SUM_AT = S5933_SAVED_BYTES - 4 };

/* The CRC-32 of any bytes with their own CRC-32 behind them. */
#define ANY_SUM UINT32_C(0x2144DF1C)

static struct pages page;
static unsigned long steps, refused;

/* ---- in the middle of frames ---- */

/* Another controller of the same words. */
static void save_and_restore(s5933_controller *c)
{
    uint8_t bytes[S5933_SAVED_BYTES];

    s5933_save(c, bytes);
    memset(c, 0xA5, sizeof *c);
    if (s5933_restore(c, bytes, sizeof bytes) != S5933_DONE)
        fail("what was saved is not restored");
    if (s5933_crc(bytes, sizeof bytes) != ANY_SUM)
        fail("a sum over all bytes knows the controller");
}

/* Reads a line without its LF; false behind the last. */
static bool next_line(FILE *file, char *line)
{
    if (fgets(line, LINE_SIZE, file) == NULL)
        return false;
    line[strcspn(line, "\n")] = '\0';
    return true;
}

/* Whether it is a frame, and which step. */
static bool is_frame(const char *text, struct step *s)
{
    const uint8_t *line = (const uint8_t *)text;
    int64_t all = strlen(text) == S5933_FRAME_DIGITS
                ? s5933_number(line, 0, S5933_FRAME_DIGITS) : -1;

    if (all < 0)
        return false;
    s->kind = (uint32_t)s5933_number(line, 0, 2);
    s->offset = (uint32_t)s5933_number(line, 2, 2);
    s->enables = (uint32_t)s5933_number(line, 4, 1);
    s->data = (uint32_t)s5933_number(line, 5, 8);
    return true;
}

/* The answers to the frames are those of the log. A line that is none has
 * code 14 and leaves both lines. */
static void run(FILE *frames, FILE *log)
{
    static uint32_t memory[MEMORY_WORDS];
    const s5933_window window = { memory, MEMORY_WORDS, 0 };
    s5933_controller chip;
    s5933_answer a = { 0, 0, 0, 0, 0, 0, 0 };
    char frame[LINE_SIZE], line[LINE_SIZE];
    struct step s;

    memset(memory, 0, sizeof memory);
    s5933_init(&chip);
    if (!next_line(frames, frame))
        fail("no set line");
    while (next_line(frames, frame)) {
        s5933_answer logged;

        save_and_restore(&chip);
        if (is_frame(frame, &s))
            a = s5933_do(&chip, &window, s.kind, s.offset, s.enables, s.data);
        else
            a = (s5933_answer){ .code = S5933_NOT_A_FRAME_LINE,
                                .line = a.line, .addon_line = a.addon_line };
        if (!next_line(log, line) || strlen(line) < S5933_LABEL_AT)
            fail("the log is too short");
        logged = answer_in((const uint8_t *)line);
        if (!same_in_log(&a, &logged))
            fail(frame);
        steps++;
    }
    if (next_line(log, line))
        fail("the log is too long");
}

/* ---- what is refused ---- */

/* So many bytes, at the end of a page, are refused by the number, and leave
 * the controller. */
static void refuse(const uint8_t *bytes, size_t length, int number)
{
    uint8_t *at = placed(&page, AT_END, length);
    s5933_controller c, before;

    protect(&page, PROT_READ | PROT_WRITE);
    memcpy(at, bytes, length);
    protect(&page, PROT_READ);
    memset(&c, 0x5A, sizeof c);
    before = c;
    if (s5933_restore(&c, at, length) != number)
        fail("taken, or refused by another number");
    if (memcmp(&c, &before, sizeof c) != 0)
        fail("a refusal changes the controller");
    refused++;
}

/* With the sum of the bytes before it at their end. */
static void refuse_summed(uint8_t *bytes, size_t length, int number)
{
    s5933_put_word(bytes + length - 4, s5933_crc(bytes, length - 4));
    refuse(bytes, length, number);
}

static void refuse_each(const uint8_t *saved)
{
    uint8_t bytes[S5933_SAVED_BYTES + LONGER] = { 0 };

    memcpy(bytes, saved, S5933_SAVED_BYTES);
    for (size_t bit = 0; bit < 8 * S5933_SAVED_BYTES; bit++) {
        snprintf(current, sizeof current, "bit %zu", bit);
        bytes[bit / 8] ^= (uint8_t)(1 << bit % 8);
        refuse(bytes, S5933_SAVED_BYTES, S5933_NOT_SAVED);
        bytes[bit / 8] ^= (uint8_t)(1 << bit % 8);
    }
    for (size_t n = 0; n <= sizeof bytes; n++) {
        snprintf(current, sizeof current, "%zu bytes", n);
        if (n != S5933_SAVED_BYTES)
            refuse(bytes, n, S5933_NOT_SAVED);
    }
}

/* Right sums over what else is wrong: another version, of any length that
 * has one; this version at another length; another magic number. */
static void refuse_with_sums(const uint8_t *saved)
{
    static const char versions[][S5933_SAVED_VERSION_BYTES] = {
        "1.7", "1.9", "1.80", "1.", "2.8", ""
    };
    const size_t lengths[] = { S5933_SAVED_BYTES, 16, SUM_AT,
                               S5933_SAVED_BYTES + LONGER };
    uint8_t bytes[S5933_SAVED_BYTES + LONGER] = { 0 };

    for (size_t k = 0; k < sizeof lengths / sizeof lengths[0]; k++) {
        snprintf(current, sizeof current, "%zu bytes with a right sum",
                 lengths[k]);
        memcpy(bytes, saved, S5933_SAVED_BYTES);
        if (lengths[k] != S5933_SAVED_BYTES)
            refuse_summed(bytes, lengths[k], S5933_NOT_SAVED);
        for (size_t i = 0; i < sizeof versions / sizeof versions[0]; i++) {
            memcpy(bytes + 4, versions[i], sizeof versions[i]);
            refuse_summed(bytes, lengths[k], S5933_OTHER_VERSION);
        }
        bytes[0] ^= 1;
        refuse_summed(bytes, lengths[k], S5933_NOT_SAVED);
    }
}

static void refusals(const char *name)
{
    uint8_t saved[S5933_SAVED_BYTES];
    s5933_controller c;
    FILE *file = must(fopen(name, "wb"));

    for (uint32_t i = 0; i < S5933_CONTROLLER_WORDS; i++)
        c.word[i] = i + 1;
    s5933_save(&c, saved);
    if (fwrite(saved, 1, sizeof saved, file) != sizeof saved
        || fclose(file) != 0)
        fail("the file is not written");
    refuse_each(saved);
    refuse_with_sums(saved);
}

/* ---- what changes a controller ---- */

/* Out of form when it was saved, and when it is restored: code 1 to every
 * kind, with zeros behind it, and no word changes. */
static void out_of_form(void)
{
    s5933_controller c, before;

    snprintf(current, sizeof current, "a controller out of form");
    for (uint32_t i = 0; i < S5933_CONTROLLER_WORDS; i++)
        c.word[i] = i + 1;
    before = c;
    save_and_restore(&c);
    for (uint32_t kind = S5933_PCI_READ; kind <= S5933_CHIP_RESET; kind++) {
        s5933_answer a = s5933_do(&c, NULL, kind, S5933_MBEF, 0xF, 0);

        if (a.code != S5933_STATE_OUT_OF_FORM || a.address != 0 || a.data != 0
            || a.enables != 0 || a.line != 0 || a.addon_line != 0)
            fail("another answer than code 1");
    }
    if (memcmp(&c, &before, sizeof c) != 0)
        fail("not restored as it was, or changed by code 1");
}

/* Four bytes to move, with a word for them, both ways on, and both rights. */
static s5933_controller in_bursts(void)
{
    s5933_controller c;
    uint32_t on = S5933_MCSR_READ_CYCLES | S5933_MCSR_READ_AT_FOUR
                | S5933_MCSR_WRITE_CYCLES | S5933_MCSR_WRITE_AT_FOUR;

    s5933_init(&c);
    if (s5933_pci_write(&c, NULL, S5933_MWTC, 0xF, 4).code != S5933_DONE
        || s5933_pci_write(&c, NULL, S5933_MRTC, 0xF, 4).code != S5933_DONE
        || s5933_pci_write(&c, NULL, S5933_MCSR, 0xF, on).code != S5933_DONE
        || s5933_addon_write(&c, NULL, S5933_FIFO, 0xF, 7).code != S5933_DONE)
        fail("a burst is not prepared");
    c.word[W_READ_RIGHT] = c.word[W_WRITE_RIGHT] = 1;
    return c;
}

/* A cycle of either kind without a window: code 13, both abort bits are set,
 * both rights end, and no other word changes; cleared, it is 12 by WF4. */
static void no_window(uint32_t kind)
{
    s5933_controller c = in_bursts(), wanted = c;

    snprintf(current, sizeof current, "no window, kind %u", (unsigned)kind);
    wanted.word[W_INTCSR] = S5933_INTCSR_MASTER_ABORT;
    wanted.word[W_AINT] = S5933_AINT_ABORT;
    wanted.word[W_READ_RIGHT] = wanted.word[W_WRITE_RIGHT] = 0;
    if (s5933_do(&c, NULL, kind, 0, 0, 0).code != S5933_NO_MEMORY_THERE)
        fail("not code 13");
    if (memcmp(&c, &wanted, sizeof c) != 0)
        fail("code 13 leaves other words");
    if (s5933_do(&c, NULL, kind, 0, 0, 0).code != S5933_ABORT_STANDS)
        fail("not code 11");
    s5933_pci_write(&c, NULL, S5933_INTCSR, 4, S5933_INTCSR_MASTER_ABORT);
    if (c.word[W_INTCSR] != 0 || c.word[W_AINT] != S5933_AINT_ABORT)
        fail("INTCSR 20 is not cleared, or the card's bit is");
    if (s5933_write_cycle(&c, NULL).code != S5933_FIFO_NOT_READY)
        fail("not code 12");
}

/* A done read takes marks and sets the card's flag. */
static void reads_store(void)
{
    s5933_controller c;

    snprintf(current, sizeof current, "a read of IMB1");
    s5933_init(&c);
    s5933_addon_write(&c, NULL, S5933_AINT, 0xF, S5933_AINT_INCOMING_ENABLE);
    s5933_addon_write(&c, NULL, S5933_IMB1, 0xF, 0x12345678);
    if (c.word[W_MARKS] != 0x000F0000)
        fail("no marks");
    if (s5933_pci_read(&c, NULL, S5933_IMB1, 0xF).data != 0x12345678)
        fail("another word");
    if (c.word[W_MARKS] != 0
        || c.word[W_AINT] != (S5933_AINT_INCOMING_ENABLE
                               | S5933_AINT_INCOMING_EVENT))
        fail("marks or AINT are not what the header says");
}

int main(int argc, char **argv)
{
    if (argc < 4 || argc % 2 != 0) {
        fputs("usage: saved FILE FRAMES LOG [FRAMES LOG]...\n", stderr);
        return 2;
    }
    guard_set_up("saved", 0);
    page = new_pages(PAGE);
    for (int i = 2; i < argc; i += 2) {
        FILE *frames = must(fopen(argv[i], "r"));
        FILE *log = must(fopen(argv[i + 1], "r"));

        snprintf(current, sizeof current, "%s", argv[i]);
        run(frames, log);
        fclose(frames);
        fclose(log);
    }
    refusals(argv[1]);
    out_of_form();
    no_window(S5933_WRITE_CYCLE);
    no_window(S5933_READ_CYCLE);
    reads_store();
    printf("saved: %lu steps, %lu refusals\n", steps, refused);
    return 0;
}
