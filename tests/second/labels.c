/* labels.c: the labels of every set, and whether they may be labels.
 * Part of the second program, written from documents 01 and 02 alone.
 *
 *   labels    prints them, one a line, set by set and code by code; exit
 *             status 0 if each has 1 to 18 bytes, ASCII letters, spaces,
 *             - and / only, and no two of a set are alike */
#include "model.h"

#include <stdio.h>
#include <string.h>

enum { LABEL_MOST = 18 };

static bool may_be_label(const char *label)
{
    static const char allowed[] = "abcdefghijklmnopqrstuvwxyz"
                                  "ABCDEFGHIJKLMNOPQRSTUVWXYZ -/";
    size_t n = strlen(label);

    return n > 0 && n <= LABEL_MOST && strspn(label, allowed) == n
        && label[0] != ' ' && label[n - 1] != ' ';
}

static bool alike_before(int set, int code)
{
    for (int i = 0; i < code; i++)
        if (strcmp(model_label[set][i], model_label[set][code]) == 0)
            return true;
    return false;
}

int main(void)
{
    int failures = 0;

    for (int set = 0; set < SETS; set++)
        for (int code = 0; code < CODES; code++) {
            const char *label = model_label[set][code];

            puts(label == NULL ? "" : label);
            if (label == NULL || !may_be_label(label)
                || alike_before(set, code)) {
                fprintf(stderr, "set %d, code %d: no label\n", set, code);
                failures++;
            }
        }
    return failures == 0 && fflush(stdout) == 0 ? 0 : 1;
}
