/* guard.c: what the attacks on the C calls share. */
#define _GNU_SOURCE
#include "guard.h"

#include <signal.h>
#include <stdio.h>
#include <stdlib.h>
#include <string.h>
#include <sys/mman.h>
#include <unistd.h>

enum { GUARD = 16 * PAGE };

char current[128];
static const char *name = "guard";
static uint8_t *pattern;        /* longer than any pages by a period */

static size_t say(const char *text)
{
    ssize_t n = write(STDOUT_FILENO, text, strlen(text));

    return n < 0 ? 0 : (size_t)n;
}

static void on_fault(int signal)
{
    size_t n = say(name) + say(": memory fault in ") + say(current);

    (void)signal;
    _exit(n + say("\n") > 0 ? 1 : 2);
}

void fail(const char *what)
{
    printf("%s: %s: %s\n", name, current, what);
    exit(1);
}

void *must(void *got)
{
    if (got == NULL || got == MAP_FAILED) {
        perror(name);
        exit(2);
    }
    return got;
}

void protect(const struct pages *p, int access)
{
    if (mprotect(p->start, p->size, access) != 0) {
        perror(name);
        exit(2);
    }
}

struct pages new_pages(size_t bytes)
{
    size_t size = (bytes + PAGE - 1) / PAGE * PAGE;
    uint8_t *all = must(mmap(NULL, size + 2 * GUARD, PROT_NONE,
                             MAP_PRIVATE | MAP_ANONYMOUS, -1, 0));
    struct pages p = { all + GUARD, size };

    protect(&p, PROT_READ | PROT_WRITE);
    return p;
}

const struct pages *fitting(const struct pages *p, size_t n)
{
    while (p->size < n)
        p++;
    return p;
}

uint8_t *placed(const struct pages *p, enum place where, size_t n)
{
    return where == AT_START ? p->start : p->start + p->size - n;
}

const uint8_t *next_pattern(void)
{
    static unsigned long calls;

    return pattern + calls++ % PATTERN_PERIOD;
}

static uint64_t state = 5933;

void random_seed(uint64_t seed)
{
    state = seed;
}

uint32_t random32(void)
{
    state = state * UINT64_C(6364136223846793005)
          + UINT64_C(1442695040888963407);
    return (uint32_t)(state >> 32);
}

void guard_set_up(const char *program, size_t most)
{
    struct sigaction action = { .sa_handler = on_fault };
    size_t size = most + PAGE + PATTERN_PERIOD;

    name = program;
    sigaction(SIGSEGV, &action, NULL);
    sigaction(SIGBUS, &action, NULL);
    pattern = must(malloc(size));
    for (size_t i = 0; i < size; i++)
        pattern[i] = (uint8_t)(i % PATTERN_PERIOD);
}
