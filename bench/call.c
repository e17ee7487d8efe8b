/* call.c: the processor time of the C call.
 *
 *   call FRAMES TIMES [LOG]
 *
 * Calls s5933_log TIMES times on the file, prints the nanoseconds that a
 * call took, and writes the last log to the file LOG if one is given. */
#define _POSIX_C_SOURCE 200809L
#include "s5933.h"

#include <stdio.h>
#include <stdlib.h>
#include <time.h>

static uint8_t input[S5933_INPUT_MOST];

static long long nanoseconds(void)
{
    struct timespec t;

    clock_gettime(CLOCK_PROCESS_CPUTIME_ID, &t);
    return t.tv_sec * 1000000000LL + t.tv_nsec;
}

static void fail(const char *what)
{
    fprintf(stderr, "call: %s\n", what);
    exit(1);
}

int main(int argc, char **argv)
{
    FILE *file = argc > 2 ? fopen(argv[1], "rb") : NULL;
    size_t n = file == NULL ? 0 : fread(input, 1, sizeof input, file);
    long times = argc > 2 ? strtol(argv[2], NULL, 10) : 0;
    size_t room = s5933_room(input, n);
    uint8_t *output;
    long long start, spent;
    int64_t log = 0;

    if (n == 0 || times <= 0)
        fail("usage: call FRAMES TIMES [LOG]");
    output = malloc(room);
    if (output == NULL)
        fail("no memory");
    start = nanoseconds();
    for (long i = 0; i < times && log >= 0; i++)
        log = s5933_log(input, n, output, room, S5933_ENGLISH);
    spent = nanoseconds() - start;
    if (log <= 0)
        fail("the call refused");
    printf("%lld\n", spent / times);
    file = argc > 3 ? fopen(argv[3], "wb") : NULL;
    if (file != NULL && (fwrite(output, 1, (size_t)log, file) != (size_t)log
                         || fclose(file) != 0))
        fail("the log could not be written");
    free(output);
    return 0;
}
