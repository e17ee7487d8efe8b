/* fields.c: log lines cut by the places that include/s5933.h has. It is
 * compiled as C and as C++.
 *
 *   fields < LOG    each line's code, address, data, enables, interrupt
 *                   line, Add-On interrupt line and label, with | between
 *                   them; exit status 1 if a field is no number, or a byte
 *                   is read as another digit */
#include "s5933.h"

#include <stdio.h>
#include <string.h>

static const char all[] = "0123456789ABCDEF";

/* Every byte, as a digit by itself. */
static int digits_differ(void)
{
    int wrong = 0;

    for (int byte = 0; byte < 256; byte++) {
        const uint8_t text[] = { '1', (uint8_t)byte, '1' };
        const char *place = strchr(all, byte);
        int64_t wanted = byte == 0 || place == NULL ? -1 : place - all;

        wrong += s5933_number(text, 1, 1) != wanted;
    }
    return wrong;
}

static int show(const uint8_t *line, size_t at, size_t digits)
{
    int64_t number = s5933_number(line, at, digits);

    printf("%0*llX|", (int)digits, (unsigned long long)number);
    return number < 0;
}

/* Shows a line's fields; how many of them are none. */
static int show_fields(const char *text)
{
    const uint8_t *line = (const uint8_t *)text;
    int wrong = text[S5933_SPACE_AT] != ' ';

    wrong += show(line, S5933_CODE_AT, S5933_CODE_DIGITS);
    wrong += show(line, S5933_ADDRESS_AT, S5933_ADDRESS_DIGITS);
    wrong += show(line, S5933_DATA_AT, S5933_DATA_DIGITS);
    wrong += show(line, S5933_ENABLES_AT, S5933_ENABLES_DIGITS);
    wrong += show(line, S5933_INTERRUPT_AT, S5933_INTERRUPT_DIGITS);
    wrong += show(line, S5933_ADDON_INTERRUPT_AT,
                  S5933_ADDON_INTERRUPT_DIGITS);
    fputs(text + S5933_LABEL_AT, stdout);
    return wrong;
}

int main(void)
{
    char text[S5933_LINE_ROOM + 1];
    int wrong = digits_differ();

    while (wrong == 0 && fgets(text, sizeof text, stdin) != NULL)
        wrong = show_fields(text);
    return wrong == 0 ? 0 : 1;
}
