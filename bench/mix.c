/* mix.c: frames of one sort, each of which is answered done.
 *
 *   mix reads|mailboxes|cycles COUNT > frames
 *
 * reads      registers of the PCI side, one after the other
 * mailboxes  a write by the owner and a read by the other side, both ways,
 *            and the status
 * cycles     a word in by the Add-On's port, a write cycle, a read cycle,
 *            the word out by the port; every 4,096 words the addresses and
 *            counts anew */
#include <stdint.h>
#include <stdio.h>
#include <stdlib.h>
#include <string.h>

enum { PCI_READ, PCI_WRITE, ADDON_READ, ADDON_WRITE, WRITE_CYCLE, READ_CYCLE };
enum { MEMORY_WORDS = 4096 };

static unsigned long left;

static void frame(unsigned kind, unsigned offset, uint32_t data)
{
    if (left == 0)
        return;
    left--;
    printf("%02X%02XF%08X\n", kind, offset, (unsigned)data);
}

static void reads(unsigned long turn)
{
    static const unsigned char offsets[] = {
        0x00, 0x04, 0x08, 0x0C, 0x10, 0x14, 0x18, 0x1C,
        0x24, 0x28, 0x2C, 0x30, 0x34, 0x38, 0x3C
    };

    for (size_t i = 0; turn == 0 && i < sizeof offsets; i++)
        if (offsets[i] != 0x34 && (offsets[i] < 0x10 || offsets[i] > 0x1C))
            frame(PCI_WRITE, offsets[i], 0x0123F654);
    for (size_t i = 0; i < sizeof offsets; i++)
        frame(PCI_READ, offsets[i], 0);
}

static void mailboxes(unsigned long turn)
{
    unsigned offset = (unsigned)(turn % 4) * 4;
    uint32_t data = (uint32_t)turn * 2654435761u;

    frame(PCI_WRITE, offset, data);
    frame(ADDON_READ, offset, 0);
    frame(ADDON_WRITE, 0x10 + offset, data);
    frame(PCI_READ, 0x10 + offset, 0);
    frame(PCI_READ, 0x34, 0);
}

static void cycles(unsigned long turn)
{
    if (turn % MEMORY_WORDS == 0) {
        frame(PCI_WRITE, 0x3C, 0x4400);
        frame(PCI_WRITE, 0x24, 0);
        frame(PCI_WRITE, 0x28, 4 * MEMORY_WORDS);
        frame(PCI_WRITE, 0x2C, 0);
        frame(PCI_WRITE, 0x30, 4 * MEMORY_WORDS);
    }
    frame(ADDON_WRITE, 0x20, (uint32_t)turn * 2654435761u);
    frame(WRITE_CYCLE, 0, 0);
    frame(READ_CYCLE, 0, 0);
    frame(ADDON_READ, 0x20, 0);
}

int main(int argc, char **argv)
{
    void (*mix)(unsigned long) = NULL;

    if (argc == 3 && strcmp(argv[1], "reads") == 0)
        mix = reads;
    else if (argc == 3 && strcmp(argv[1], "mailboxes") == 0)
        mix = mailboxes;
    else if (argc == 3 && strcmp(argv[1], "cycles") == 0)
        mix = cycles;
    if (mix == NULL) {
        fputs("usage: mix reads|mailboxes|cycles COUNT\n", stderr);
        return 2;
    }
    left = strtoul(argv[2], NULL, 10);
    for (unsigned long turn = 0; left > 0 && !ferror(stdout); turn++)
        mix(turn);
    return fflush(stdout) == 0 && !ferror(stdout) ? 0 : 1;
}
