/* stack.c: how many bytes of stack the C calls use.
 *
 *   stack hexcases.txt LOG_MOST HEX_MOST STEP_MOST
 *
 * Exit status 0 if s5933_log uses at most LOG_MOST under any set, each call
 * on windows at most HEX_MOST, in the cases of the table and on generated
 * windows and files, and s5933_step at most STEP_MOST on generated steps.
 *
 * Each call has a stack of its own, filled with a pattern; what it uses
 * reaches down to the lowest byte that one of its runs has changed. */
#include "guard.h"
#include "hexcall.h"
#include "hexcases.h"
#include "hexmake.h"
#include "steps.h"

#include <stdio.h>
#include <stdlib.h>
#include <string.h>
#include <ucontext.h>

enum { STACK_SIZE = 1 << 20, PATTERN = 0xA5, FILES = 2000, WORDS = 16,
       CHIPS = 20000 };
enum { LOG = HEX_CALLS, STEP, NOTHING, STACKS };

/* A frame of each kind, and a line that is none. */
static const char frames[] =
    "013CF00004400\n0128F00000004\n0130F00000004\n0320F12345678\n"
    "0034F00000000\n0200F00000000\n0400000000000\n0500000000000\nxyz\n"
    "0600000000000\n";
static uint8_t output[FILE_ROOM];
static uint32_t set;            /* of the labels */
static struct hexcase given;    /* to a call on a window */
static s5933_controller chip;   /* to a step */
static uint32_t memory[WORDS], answer[S5933_ANSWER_WORDS];
static struct step step;
static int64_t returned;

static void call_length(void)
{
    returned = s5933_hex_length(given.count, given.start);
}

static void call_export(void)
{
    returned = s5933_hex_export(given.words, given.count, given.start, output,
                                given.room);
}

static void call_load(void)
{
    returned = s5933_hex_load(given.words, given.count, given.start,
                              given.text, given.length);
}

static void call_log(void)
{
    returned = s5933_log((const uint8_t *)frames, sizeof frames - 1, output,
                         sizeof output, set);
}

static void call_step(void)
{
    returned = s5933_step(chip.word, S5933_CONTROLLER_WORDS, memory, WORDS, 0,
                          step.kind, step.offset, step.enables, step.data,
                          answer, S5933_ANSWER_WORDS);
}

static void call_nothing(void)
{
}

/* ---- stacks ---- */

static struct {
    const char *name;
    void (*call)(void);
    struct pages stack;
} calls[STACKS] = {
    [HEX_LENGTH] = { "s5933_hex_length", call_length, { NULL, 0 } },
    [HEX_EXPORT] = { "s5933_hex_export", call_export, { NULL, 0 } },
    [HEX_LOAD] = { "s5933_hex_load", call_load, { NULL, 0 } },
    [LOG] = { "s5933_log", call_log, { NULL, 0 } },
    [STEP] = { "s5933_step", call_step, { NULL, 0 } },
    [NOTHING] = { "nothing", call_nothing, { NULL, 0 } }
};

static void run(int call)
{
    static ucontext_t here, there;

    snprintf(current, sizeof current, "%s", calls[call].name);
    if (getcontext(&there) != 0)
        fail("no context");
    there.uc_stack.ss_sp = calls[call].stack.start;
    there.uc_stack.ss_size = calls[call].stack.size;
    there.uc_link = &here;
    makecontext(&there, calls[call].call, 0);
    if (swapcontext(&here, &there) != 0)
        fail("no other context");
}

static size_t changed(const struct pages *stack)
{
    size_t low = 0;

    while (low < stack->size && stack->start[low] == PATTERN)
        low++;
    return stack->size - low;
}

static bool uses_at_most(int call, size_t most)
{
    size_t used = changed(&calls[call].stack) - changed(&calls[NOTHING].stack);

    printf(" %s %zu", calls[call].name, used);
    return used <= most;
}

/* ---- what is run ---- */

static void log_in_each_set(void)
{
    for (set = S5933_ENGLISH; set <= S5933_GERMAN; set++) {
        run(LOG);
        if (returned <= 0)
            fail("refused");
    }
}

static bool holds(const struct hexcase *c)
{
    given = *c;
    if (given.room > sizeof output)
        fail("a case wants more room");
    run(c->call);
    return returned == c->answer;
}

static void all_calls_on_files(void)
{
    static struct hexmake f;

    for (int i = 0; i < FILES; i++) {
        make_window(&f);
        make_file(&f);
        given = (struct hexcase){
            .start = f.start, .count = f.count, .words = f.words,
            .room = sizeof output, .text = f.text, .length = f.length
        };
        for (int call = 0; call < HEX_CALLS; call++)
            run(call);
    }
}

/* Controllers in form and out of it, done steps and refused ones. */
static void steps_on_controllers(void)
{
    for (int i = 0; i < CHIPS; i++) {
        random_controller(chip.word, 0, WORDS);
        if (below(16) == 0)
            chip.word[below(S5933_CONTROLLER_WORDS)] = random32();
        step = random_step(WORDS);
        run(STEP);
    }
}

int main(int argc, char **argv)
{
    bool good;

    if (argc != 5) {
        fputs("usage: stack hexcases.txt LOG_MOST HEX_MOST STEP_MOST\n",
              stderr);
        return 2;
    }
    guard_set_up("stack", 0);
    for (int call = 0; call < STACKS; call++) {
        calls[call].stack = new_pages(STACK_SIZE);
        memset(calls[call].stack.start, PATTERN, STACK_SIZE);
    }
    run(NOTHING);
    log_in_each_set();
    if (!hexcases_hold(argv[1], holds))
        return 1;
    all_calls_on_files();
    steps_on_controllers();
    printf("stack, in bytes:");
    good = uses_at_most(LOG, strtoul(argv[2], NULL, 10));
    good = uses_at_most(STEP, strtoul(argv[4], NULL, 10)) && good;
    for (int call = 0; call < HEX_CALLS; call++)
        good = uses_at_most(call, strtoul(argv[3], NULL, 10)) && good;
    printf("\n");
    return good ? 0 : 1;
}
