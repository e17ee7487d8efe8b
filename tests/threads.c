/* threads.c: s5933_step in two threads, each with a controller, a memory and
 * steps of its own.
 *
 *   threads ROUNDS
 *
 * In every round the answers, the words and the memory of each are those of
 * the same steps made before, with nothing beside them. */
#define _POSIX_C_SOURCE 200809L
#include "guard.h"
#include "steps.h"

#include <pthread.h>
#include <stdio.h>
#include <stdlib.h>
#include <string.h>

enum { THREADS = 2, STEPS = 20000, WORDS = 64 };

/* A run: what it steps on, and what it is answered. */
struct run {
    s5933_controller chip;
    uint32_t memory[WORDS];
    s5933_answer answers[STEPS];
};

static struct step steps[THREADS][STEPS];
static struct run alone[THREADS], beside[THREADS];
static pthread_barrier_t start;

static void make(struct run *r, const struct step *s)
{
    const s5933_window window = { r->memory, WORDS, 0 };

    memset(r, 0, sizeof *r);
    for (int i = 0; i < STEPS; i++)
        r->answers[i] = s5933_do(&r->chip, &window, s[i].kind, s[i].offset,
                                 s[i].enables, s[i].data);
}

static void *thread(void *argument)
{
    size_t number = *(const size_t *)argument;

    pthread_barrier_wait(&start);
    make(&beside[number], steps[number]);
    return NULL;
}

static void round_of_all(void)
{
    pthread_t threads[THREADS];
    size_t numbers[THREADS];

    for (size_t i = 0; i < THREADS; i++) {
        numbers[i] = i;
        if (pthread_create(&threads[i], NULL, thread, &numbers[i]) != 0)
            fail("no thread");
    }
    for (size_t i = 0; i < THREADS; i++)
        if (pthread_join(threads[i], NULL) != 0)
            fail("no end of a thread");
    if (memcmp(alone, beside, sizeof alone) != 0)
        fail("other answers, words or memory than alone");
}

int main(int argc, char **argv)
{
    unsigned long rounds;

    if (argc != 2 || (rounds = strtoul(argv[1], NULL, 10)) == 0) {
        fputs("usage: threads ROUNDS\n", stderr);
        return 2;
    }
    guard_set_up("threads", 0);
    if (pthread_barrier_init(&start, NULL, THREADS) != 0)
        fail("no barrier");
    for (int i = 0; i < THREADS; i++) {
        for (int k = 0; k < STEPS; k++)
            steps[i][k] = random_step(WORDS);
        make(&alone[i], steps[i]);
    }
    for (unsigned long i = 0; i < rounds; i++) {
        snprintf(current, sizeof current, "round %lu", i);
        round_of_all();
    }
    printf("threads: %lu rounds of %d steps in each of %d threads\n", rounds,
           STEPS, THREADS);
    return 0;
}
