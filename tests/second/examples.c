/* examples.c: the ten marked examples of document 01, over the model.
 * Part of the second program, written from documents 01 and 02 alone. */
#include "model.h"

#include <stdio.h>
#include <string.h>

enum { MEMORY_WORDS = 4096 };

static struct controller chip;
static uint32_t memory[MEMORY_WORDS];
static struct window window = { memory, 0, MEMORY_WORDS };
static int failures;

static void from_reset(void)
{
    model_reset(&chip);
    memset(memory, 0, sizeof memory);
}

static struct answer step(uint32_t kind, uint32_t offset, uint32_t enables,
                          uint32_t data)
{
    struct step s = { kind, offset, enables, data };

    return model_step(&chip, &window, &s);
}

static uint32_t pci_read(uint32_t offset)
{
    return step(PCI_READ, offset, 15, 0).data;
}

static void pci_write(uint32_t offset, uint32_t data)
{
    step(PCI_WRITE, offset, 15, data);
}

static void expect(int example, uint32_t is, uint32_t should)
{
    if (is == should)
        return;
    printf("example %d: %08X, not %08X\n", example, (unsigned)is,
           (unsigned)should);
    failures++;
}

static void registers(void)
{
    from_reset();
    expect(1, pci_read(0x3C), 0x000000E6);
    from_reset();
    pci_write(0x38, 0xFFFFFFFF);
    expect(2, pci_read(0x38), 0x0000DF1F);
    from_reset();
    step(ADDON_WRITE, 0x38, 15, 0xFFFFFFFF);
    expect(2, step(ADDON_READ, 0x38, 15, 0).data, 0x0000DF1F);
    expect(2, pci_read(0x38), 0);
    from_reset();
    pci_write(0x3C, 0x0000FFFF);
    expect(3, pci_read(0x3C), 0x0000F7E6);
    from_reset();
    pci_write(0x28, 0xFFFFFFFF);
    expect(4, pci_read(0x28), 0x03FFFFFF);
    pci_write(0x24, 0xFFFFFFFF);
    expect(4, pci_read(0x24), 0xFFFFFFFC);
}

/* Fills one FIFO by its port, reads one word, and writes once more. */
static void eight_words(uint32_t writer, uint32_t reader)
{
    struct answer a;

    from_reset();
    for (uint32_t i = 0; i < 8; i++)
        expect(5, step(writer, 0x20, 15, 0x1000 + i).code, DONE);
    expect(5, step(writer, 0x20, 15, 9).code, FIFO_FULL_OR_EMPTY);
    a = step(reader, 0x20, 15, 0);
    expect(5, a.code, DONE);
    expect(5, a.data, 0x1000);
    expect(5, step(writer, 0x20, 15, 10).code, DONE);
}

static void mailbox(void)
{
    from_reset();
    expect(6, step(ADDON_WRITE, 0x10, 1, 0xA5).code, DONE);
    expect(6, pci_read(0x34), 0x00010000);
    expect(6, step(PCI_READ, 0x10, 1, 0).data, 0xA5);
    expect(6, pci_read(0x34), 0);
}

/* Both lines, the driver's before the card's. */
static uint32_t lines(struct answer a)
{
    return a.line << 1 | a.addon_line;
}

static void write_cycles(void)
{
    from_reset();
    memory[0x104 / 4] = 0xAAAAAAAA;
    pci_write(0x24, 0x100);
    pci_write(0x28, 5);
    pci_write(0x3C, 0x400);
    step(ADDON_WRITE, 0x20, 15, 0x11223344);
    step(ADDON_WRITE, 0x20, 15, 0x55667788);
    expect(7, step(WRITE_CYCLE, 0, 0, 0).code, DONE);
    expect(7, step(WRITE_CYCLE, 0, 0, 0).code, DONE);
    expect(7, memory[0x100 / 4], 0x11223344);
    expect(7, memory[0x104 / 4], 0xAAAAAA88);
    expect(7, pci_read(0x28), 0);
    expect(7, pci_read(0x24), 0x108);
    expect(7, pci_read(0x38), 0x00040000);
    expect(8, step(WRITE_CYCLE, 0, 0, 0).code, COUNT_IS_ZERO);
}

/* The same as the card sees it: its flag is set too, and each side has to
 * enable it for its own line. */
static void write_cycles_for_the_card(void)
{
    expect(7, step(ADDON_READ, 0x38, 15, 0).data, 0x00040000);
    expect(7, lines(step(ADDON_WRITE, 0x38, 2, 0x4000)), 1);
    expect(7, step(ADDON_READ, 0x38, 15, 0).data, 0x00844000);
    expect(7, lines(step(PCI_WRITE, 0x38, 2, 0x4000)), 3);
    expect(7, lines(step(ADDON_WRITE, 0x38, 4, 0x00040000)), 2);
    pci_write(0x28, 0);
    expect(7, step(ADDON_READ, 0x38, 15, 0).data, 0x00004000);
}

/* Sets up count 4 and a word held at the address. */
static void one_word_at(uint32_t address)
{
    from_reset();
    pci_write(0x24, address);
    pci_write(0x28, 4);
    pci_write(0x3C, 0x400);
    step(ADDON_WRITE, 0x20, 15, 0x12345678);
}

static void edge_of_memory(void)
{
    one_word_at(0x3FFC);
    expect(9, step(WRITE_CYCLE, 0, 0, 0).code, DONE);
    one_word_at(0x4000);
    expect(9, step(WRITE_CYCLE, 0, 0, 0).code, NO_MEMORY_THERE);
    expect(9, step(WRITE_CYCLE, 0, 0, 0).code, ABORT_STANDS);
    pci_write(0x38, 0x00100000);
    expect(9, step(WRITE_CYCLE, 0, 0, 0).code, NO_MEMORY_THERE);
}

/* The same once more: the card's abort bit stands until the card clears
 * it, whatever the driver does to its own. */
static void edge_for_the_card(void)
{
    one_word_at(0x4000);
    expect(9, lines(step(WRITE_CYCLE, 0, 0, 0)), 3);
    expect(9, lines(step(PCI_WRITE, 0x38, 15, 0x00100000)), 1);
    expect(9, step(ADDON_READ, 0x38, 15, 0).data, 0x00A00000);
    expect(9, lines(step(ADDON_WRITE, 0x38, 15, 0x00200000)), 0);
}

static void threshold(void)
{
    from_reset();
    pci_write(0x3C, 0x600);
    pci_write(0x28, 16);
    for (uint32_t i = 0; i < 3; i++)
        step(ADDON_WRITE, 0x20, 15, i);
    expect(10, step(WRITE_CYCLE, 0, 0, 0).code, FIFO_NOT_READY);
    step(ADDON_WRITE, 0x20, 15, 3);
    for (uint32_t i = 0; i < 4; i++) {
        struct answer a = step(WRITE_CYCLE, 0, 0, 0);

        expect(10, a.code, DONE);
        expect(10, a.data, i);
    }
    expect(10, pci_read(0x28), 0);
}

/* Its like on the other side: room for three doesn't do, room for four
 * does, and from then on until the FIFO is full. */
static void room_threshold(void)
{
    from_reset();
    pci_write(0x3C, 0x6000);
    pci_write(0x30, 64);
    for (uint32_t i = 0; i < 5; i++)
        pci_write(0x20, i);
    expect(10, step(READ_CYCLE, 0, 0, 0).code, FIFO_NOT_READY);
    step(ADDON_READ, 0x20, 15, 0);
    for (uint32_t i = 0; i < 4; i++)
        expect(10, step(READ_CYCLE, 0, 0, 0).code, DONE);
    expect(10, step(READ_CYCLE, 0, 0, 0).code, FIFO_NOT_READY);
    step(ADDON_READ, 0x20, 15, 0);
    expect(10, step(READ_CYCLE, 0, 0, 0).code, FIFO_NOT_READY);
}

int main(void)
{
    registers();
    eight_words(PCI_WRITE, ADDON_READ);
    eight_words(ADDON_WRITE, PCI_READ);
    mailbox();
    write_cycles();
    write_cycles_for_the_card();
    edge_of_memory();
    edge_for_the_card();
    threshold();
    room_threshold();
    printf("examples: %d failures\n", failures);
    return failures == 0 ? 0 : 1;
}
