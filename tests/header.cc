// Includes the header from C++ and uses what it declares; compiled only.
#include "s5933.h"

static_assert(S5933_INPUT_MOST == 1048576 && S5933_LINE_ROOM == 41 && S5933_WINDOW_MOST == 16384, "the limits");
static_assert(S5933_NO_ROOM == -1 && S5933_INPUT_TOO_LONG == -2 && S5933_UNKNOWN_SET == -3, "the refusals");
static_assert(S5933_ENGLISH == 0 && S5933_GERMAN == 1, "the sets");
static_assert(S5933_FRAME_DIGITS == 2 + 2 + 1 + 8, "a frame");
static_assert(S5933_PCI_READ == 0 && S5933_PCI_WRITE == 1 && S5933_ADDON_READ == 2 && S5933_ADDON_WRITE == 3, "the accesses");
static_assert(S5933_AINT == S5933_INTCSR && S5933_AGCSTS == S5933_MCSR, "the Add-On side's own");
static_assert(S5933_WRITE_CYCLE == 4 && S5933_READ_CYCLE == 5 && S5933_CHIP_RESET == 6, "the other kinds");
static_assert(S5933_CONTROLLER_WORDS == 38 && sizeof(s5933_controller) == 4 * S5933_CONTROLLER_WORDS, "a controller");
static_assert(S5933_ANSWER_WORDS == 7 && S5933_NO_ANSWER == -1, "an answer");
static_assert(S5933_SAVED_BYTES == 168 && S5933_SAVED_VERSION_BYTES == 8 && S5933_SAVED_MAGIC == 0x33393553, "what is saved");
static_assert(sizeof S5933_VERSION <= S5933_SAVED_VERSION_BYTES, "a version has room");
static_assert(S5933_NOT_SAVED == -1 && S5933_OTHER_VERSION == -2, "what is not restored");
static_assert(sizeof(s5933_version_is_saved_whole) == 1, "a version is saved whole");

static_assert((S5933_INTCSR_TARGET_ABORT | S5933_INTCSR_MASTER_ABORT | S5933_INTCSR_READ_COUNT_ZERO | S5933_INTCSR_WRITE_COUNT_ZERO
               | S5933_INTCSR_INCOMING_EVENT | S5933_INTCSR_OUTGOING_EVENT) == 0x003F0000, "the flags of INTCSR");
static_assert((S5933_INTCSR_READ_COUNT_ENABLE | S5933_INTCSR_WRITE_COUNT_ENABLE | S5933_INTCSR_INCOMING_ENABLE
               | 3 << S5933_INTCSR_INCOMING_MAILBOX_AT | 3 << S5933_INTCSR_INCOMING_BYTE_AT | S5933_INTCSR_OUTGOING_ENABLE
               | 3 << S5933_INTCSR_OUTGOING_MAILBOX_AT | 3 << S5933_INTCSR_OUTGOING_BYTE_AT) == 0xDF1F, "what INTCSR keeps");
static_assert((S5933_AINT_ABORT | S5933_AINT_READ_COUNT_ZERO | S5933_AINT_WRITE_COUNT_ZERO | S5933_AINT_INCOMING_EVENT
               | S5933_AINT_OUTGOING_EVENT) == 0x002F0000, "the flags of AINT");
static_assert((S5933_AINT_READ_COUNT_ENABLE | S5933_AINT_WRITE_COUNT_ENABLE | S5933_AINT_INCOMING_ENABLE
               | 3 << S5933_AINT_INCOMING_MAILBOX_AT | 3 << S5933_AINT_INCOMING_BYTE_AT | S5933_AINT_OUTGOING_ENABLE
               | 3 << S5933_AINT_OUTGOING_MAILBOX_AT | 3 << S5933_AINT_OUTGOING_BYTE_AT) == 0xDF1F, "what AINT keeps");
static_assert(S5933_INTCSR_LINE == 0x00800000 && S5933_AINT_LINE == 0x00800000, "the lines");
static_assert((S5933_MCSR_CLEAR_MARKS | S5933_MCSR_CLEAR_ADDON_TO_PCI | S5933_MCSR_CLEAR_PCI_TO_ADDON) == 0x0E000000, "the commands");
static_assert((S5933_MCSR_READ_CYCLES | S5933_MCSR_READ_AT_FOUR | S5933_MCSR_WRITE_CYCLES | S5933_MCSR_WRITE_AT_FOUR) == 0x6600, "cycles");
static_assert((S5933_MCSR_WRITE_COUNT_ZERO | S5933_MCSR_READ_COUNT_ZERO | S5933_MCSR_ADDON_TO_PCI_EMPTY | S5933_MCSR_PCI_TO_ADDON_EMPTY
               | S5933_MCSR_PCI_TO_ADDON_FOUR_FREE) == 0xE6, "the status after reset");
static_assert((S5933_MCSR_ADDON_TO_PCI_FOUR_HELD | S5933_MCSR_ADDON_TO_PCI_FULL | S5933_MCSR_PCI_TO_ADDON_FULL) == 0x19, "the others");

int64_t call(const uint8_t *input, size_t n, uint8_t *output)
{
    return s5933_log(input, n, output, s5933_room(input, n), S5933_GERMAN);
}

int64_t there_and_back(uint32_t *words, size_t count, uint32_t start, uint8_t *output)
{
    int64_t n = s5933_hex_export(words, count, start, output, (size_t)s5933_hex_length(count, start));
    return n < 0 ? n : s5933_hex_load(words, count, start, output, (size_t)n);
}

uint32_t each_kind(s5933_controller *chip, const s5933_window *window)
{
    uint32_t codes = s5933_pci_read(chip, window, S5933_MCSR, 15).code | s5933_pci_write(chip, window, S5933_MCSR, 15, 0).code;
    codes |= s5933_addon_read(chip, window, S5933_AGCSTS, 15).code | s5933_addon_write(chip, window, S5933_AINT, 15, 0).code;
    return codes | s5933_write_cycle(chip, window).code | s5933_read_cycle(chip, window).code | s5933_chip_reset(chip, nullptr).code;
}

int saved_and_restored(s5933_controller *chip, uint8_t *bytes)
{
    s5933_save(chip, bytes);
    s5933_init(chip);
    return s5933_restore(chip, bytes, S5933_SAVED_BYTES);
}
