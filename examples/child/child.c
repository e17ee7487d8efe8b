/*
 * child.c: a station that goes on for weeks.
 *
 *   child [PROGRAM [SET]] < FRAMES
 *
 * Keeps the log program (PROGRAM, a path or a name on the PATH; s5933-log
 * if none is given) running as a child, and asks it one frame at a time.
 * SET is its set line, 00 if none is given. What it answers is shown by its
 * numbers: no label is looked at. FRAMES has no set line.
 */
#define _POSIX_C_SOURCE 200809L
#include "s5933.h"

#include <errno.h>
#include <fcntl.h>
#include <inttypes.h>
#include <signal.h>
#include <spawn.h>
#include <stdbool.h>
#include <stdio.h>
#include <stdlib.h>
#include <string.h>
#include <sys/wait.h>
#include <unistd.h>

extern char **environ;

/* Exit statuses: of the log program, and of a shell for signal n, 128 + n. */
enum { FAILED = 1, UNKNOWN_SET = 3, SIGNALLED = 128 };

struct child {
    pid_t pid;
    FILE *to, *from;            /* its standard input and output */
};

struct answer {
    uint32_t code, address, data, enables, line, addon_line;
};

static void complain(const char *what, const char *why)
{
    fprintf(stderr, "child: %s: %s\n", what, why);
}

/* ---- starting and ending ---- */

/*
 * A pipe of which no child inherits an end that it isn't given: one that
 * held the other end of its own input would never see that input end.
 */
static bool open_pipe(int ends[2])
{
    return pipe(ends) == 0 && fcntl(ends[0], F_SETFD, FD_CLOEXEC) == 0
        && fcntl(ends[1], F_SETFD, FD_CLOEXEC) == 0;
}

/* Runs the program with these as standard input and output; 0, or errno. */
static int spawn(pid_t *pid, char *program, int input, int output)
{
    char *words[] = { program, NULL };
    posix_spawn_file_actions_t ends;
    posix_spawnattr_t signals;
    sigset_t broken_pipe;
    int why;

    sigemptyset(&broken_pipe);
    sigaddset(&broken_pipe, SIGPIPE);
    posix_spawnattr_init(&signals);
    posix_spawnattr_setsigdefault(&signals, &broken_pipe);
    posix_spawnattr_setflags(&signals, POSIX_SPAWN_SETSIGDEF);
    posix_spawn_file_actions_init(&ends);
    posix_spawn_file_actions_adddup2(&ends, input, STDIN_FILENO);
    posix_spawn_file_actions_adddup2(&ends, output, STDOUT_FILENO);
    why = posix_spawnp(pid, program, &ends, &signals, words, environ);
    posix_spawn_file_actions_destroy(&ends);
    posix_spawnattr_destroy(&signals);
    return why;
}

/* Starts the child; false, and said why, if it can't. */
static bool start(struct child *c, char *program)
{
    int in[2], out[2], why;

    if (!open_pipe(in) || !open_pipe(out)) {
        complain("pipe", strerror(errno));
        return false;
    }
    why = spawn(&c->pid, program, in[0], out[1]);
    close(in[0]);
    close(out[1]);
    c->to = fdopen(in[1], "w");
    c->from = fdopen(out[0], "r");
    if (why == 0 && (c->to == NULL || c->from == NULL))
        why = errno;
    if (why != 0)
        complain(program, strerror(why));
    return why == 0;
}

/*
 * Ends the child's input, at which it ends, and waits for it. It may still
 * have a line to write, the one that refuses its set, and so its output is
 * not closed before that. Returns its exit status, which says how it ended.
 */
static int finish(struct child *c)
{
    int status;

    fclose(c->to);
    for (int i = 0; i < S5933_LINE_ROOM && getc(c->from) != EOF; i++)
        continue;
    fclose(c->from);
    while (waitpid(c->pid, &status, 0) < 0)
        if (errno != EINTR)
            return FAILED;
    return WIFEXITED(status) ? WEXITSTATUS(status)
                             : SIGNALLED + WTERMSIG(status);
}

/* Says how a child ended that should not have. */
static void tell_end(int status)
{
    char what[64];

    snprintf(what, sizeof what, "the log program ended with status %d",
             status);
    if (status == UNKNOWN_SET)
        complain(what, "the set of labels is unknown");
    else if (status == FAILED)
        complain(what, "it failed, and has said why");
    else if (status > SIGNALLED)
        complain(what, "a signal ended it");
    else
        complain(what, "it gave no answer");
}

/* ---- asking ---- */

/* Sends a line, with its LF: without it there would be no answer. */
static bool send_line(struct child *c, const char *line, size_t n)
{
    return fwrite(line, 1, n, c->to) == n && putc('\n', c->to) != EOF
        && fflush(c->to) == 0;
}

/* Reads a field of a log line; false if it has none. */
static bool read_field(const uint8_t *line, size_t at, size_t digits,
                       uint32_t *field)
{
    int64_t number = s5933_number(line, at, digits);

    *field = (uint32_t)number;
    return number >= 0;
}

/* Reads a log line by its places; false if it isn't one. */
static bool read_answer(const uint8_t *line, size_t n, struct answer *a)
{
    return n > S5933_LABEL_AT && line[n - 1] == '\n'
        && line[S5933_SPACE_AT] == ' '
        && read_field(line, S5933_CODE_AT, S5933_CODE_DIGITS, &a->code)
        && read_field(line, S5933_ADDRESS_AT, S5933_ADDRESS_DIGITS,
                      &a->address)
        && read_field(line, S5933_DATA_AT, S5933_DATA_DIGITS, &a->data)
        && read_field(line, S5933_ENABLES_AT, S5933_ENABLES_DIGITS,
                      &a->enables)
        && read_field(line, S5933_INTERRUPT_AT, S5933_INTERRUPT_DIGITS,
                      &a->line)
        && read_field(line, S5933_ADDON_INTERRUPT_AT,
                      S5933_ADDON_INTERRUPT_DIGITS, &a->addon_line);
}

/*
 * Sends a frame and waits for its answer. There is never more than one on
 * the way, so no pipe can be full and neither side waits for the other.
 * False if the child is no more (the pipe is broken, its output has ended),
 * if it refused its set line, or if what came is no answer.
 */
static bool ask(struct child *c, const char *frame, size_t n,
                struct answer *a)
{
    char line[S5933_LINE_ROOM + 1];

    return send_line(c, frame, n)
        && fgets(line, sizeof line, c->from) != NULL
        && read_answer((const uint8_t *)line, strlen(line), a)
        && a->code != S5933_UNKNOWN_LABEL_SET;
}

/* ---- the station ---- */

/* Shows an answer at once, for whoever reads the history meanwhile. */
static bool show(size_t frame, const struct answer *a)
{
    return printf("%7zu %5" PRIu32 "  %08" PRIX32 "  %08" PRIX32 " %8" PRIX32
                  " %5" PRIu32 " %7" PRIu32 "\n", frame, a->code, a->address,
                  a->data, a->enables, a->line, a->addon_line) > 0
        && fflush(stdout) == 0;
}

/* Asks every frame of standard input; false if one had no answer. */
static bool run(struct child *c, const char *set)
{
    size_t frames = 0, done = 0, room = 0;
    char *frame = NULL;
    ssize_t n;
    struct answer a;
    bool good = send_line(c, set, strlen(set));

    puts("  frame  code   address      data  enables  line  Add-On");
    while (good && (n = getline(&frame, &room, stdin)) > 0) {
        n -= frame[n - 1] == '\n';
        good = ask(c, frame, (size_t)n, &a);
        if (good && !show(++frames, &a))
            break;
        done += good && a.code == S5933_DONE;
    }
    free(frame);
    if (good)
        printf("frames %zu, done %zu, not done %zu\n", frames, done,
               frames - done);
    return good;
}

int main(int argc, char **argv)
{
    static char on_path[] = "s5933-log";
    struct child c;
    bool good;
    int status;

    if (argc > 3) {
        fputs("usage: child [PROGRAM [SET]] < FRAMES\n", stderr);
        return 2;
    }
    signal(SIGPIPE, SIG_IGN);   /* a dead child is an error of a write */
    if (!start(&c, argc > 1 ? argv[1] : on_path))
        return 1;
    good = run(&c, argc > 2 ? argv[2] : "00");
    status = finish(&c);
    if (!good || status != 0)
        tell_end(status);
    if (ferror(stdin) || fflush(stdout) != 0 || ferror(stdout)) {
        complain("standard input or output", "failed");
        return 1;
    }
    return good && status == 0 ? 0 : 1;
}
