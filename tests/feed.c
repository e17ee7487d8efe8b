/* feed.c: gives a command its standard input in a chosen way.
 *
 *   feed answers COMMAND... < frames   each line is sent only when the one
 *                                      before it has been answered; the
 *                                      first is the set line, which isn't
 *   feed late:SIZE COMMAND... < frames SIZE bytes, then nothing for a while,
 *                                      during which nothing may come; then
 *                                      as with answers
 *   feed open COMMAND... < frames      all of it, and no end of the input
 *                                      before the command has ended
 *   feed SIZE COMMAND... < frames      pieces of SIZE bytes, each of which
 *                                      is one read of the command, whose
 *                                      buffer must not be shorter
 *   feed cut COMMAND... < frames       all of it, and then a read fails
 *
 * What the command writes goes to standard output. Ends with the command's
 * exit status; with 64 if nothing happens for some seconds, 65 if a call of
 * the system fails, 66 if something came too early. */
#define _GNU_SOURCE
#include <errno.h>
#include <fcntl.h>
#include <poll.h>
#include <signal.h>
#include <stdbool.h>
#include <stdio.h>
#include <stdlib.h>
#include <string.h>
#include <sys/socket.h>
#include <sys/wait.h>
#include <unistd.h>

enum { PATIENCE = 20, A_WHILE_MS = 1500, TEXT_MOST = 1 << 20 };
enum { NO_ANSWER = 64, NO_CALL, TOO_EARLY };

/* A command with pipes to its standard input and from its output. */
struct piped {
    pid_t child;
    int to, from;
};

static void give_up(int signal)
{
    static const char message[] = "feed: no answer\n";
    ssize_t n = write(STDERR_FILENO, message, sizeof message - 1);

    (void)signal;
    _exit(n < 0 ? NO_CALL : NO_ANSWER);
}

static void fail(const char *what)
{
    perror(what);
    exit(NO_CALL);
}

/* Starts the command with these two as its standard input and output. */
static pid_t start(char **command, int input, int output)
{
    pid_t child = fork();

    if (child < 0)
        fail("fork");
    if (child > 0)
        return child;
    if (dup2(input, STDIN_FILENO) < 0 || dup2(output, STDOUT_FILENO) < 0)
        fail("dup2");
    signal(SIGPIPE, SIG_DFL);
    execvp(command[0], command);
    fail(command[0]);
    return -1;
}

static int status_of(pid_t child)
{
    int status;

    alarm(PATIENCE);
    if (waitpid(child, &status, 0) != child)
        fail("waitpid");
    return WIFEXITED(status) ? WEXITSTATUS(status) : 128;
}

/* False if the command no longer reads: its log and status tell why. */
static bool send_all(int to, const char *bytes, size_t n)
{
    alarm(PATIENCE);
    while (n > 0) {
        ssize_t sent = write(to, bytes, n);

        if (sent < 0 && (errno == EPIPE || errno == ECONNRESET))
            return false;
        if (sent < 0)
            fail("write");
        bytes += sent;
        n -= (size_t)sent;
    }
    return true;
}

/* Passes on what comes until a line has ended; 0 at the end. */
static int pass_line(int from)
{
    char bytes[64];
    ssize_t n;

    alarm(PATIENCE);
    do {
        n = read(from, bytes, sizeof bytes);
        if (n < 0)
            fail("read");
        fwrite(bytes, 1, (size_t)n, stdout);
    } while (n > 0 && bytes[n - 1] != '\n');
    return n > 0;
}

static struct piped start_piped(char **command)
{
    int in[2], out[2];
    struct piped p;

    if (pipe2(in, O_CLOEXEC) != 0 || pipe2(out, O_CLOEXEC) != 0)
        fail("pipe");
    p = (struct piped){ start(command, in[0], out[1]), in[1], out[0] };
    close(in[0]);
    close(out[1]);
    return p;
}

/* Nothing may come, and the command may not end, for a while. */
static void see_silence(int from)
{
    struct pollfd end = { .fd = from, .events = POLLIN };

    alarm(PATIENCE);
    if (poll(&end, 1, A_WHILE_MS) == 0)
        return;
    fputs("feed: something came too early\n", stderr);
    exit(TOO_EARLY);
}

/* The first bytes, silence, the rest of the set line, and then each line
 * when the one before it has been answered. */
static int feed_answers(char **command, const char *text, size_t n,
                        size_t first)
{
    struct piped p = start_piped(command);
    bool frames;

    first = first < n ? first : n;
    frames = memchr(text, '\n', first) != NULL;
    send_all(p.to, text, first);
    if (first > 0)
        see_silence(p.from);
    for (size_t at = first; at < n; frames = true) {
        const char *lf = memchr(text + at, '\n', n - at);
        size_t line = lf == NULL ? n - at : (size_t)(lf - text) + 1 - at;

        if (!send_all(p.to, text + at, line))
            break;
        at += line;
        if (frames && lf != NULL && !pass_line(p.from))
            break;
    }
    close(p.to);
    while (pass_line(p.from))
        continue;
    return status_of(p.child);
}

/* The input's end comes only when the command has ended. */
static int feed_open(char **command, const char *text, size_t n)
{
    struct piped p = start_piped(command);
    int status;

    send_all(p.to, text, n);
    while (pass_line(p.from))
        continue;
    status = status_of(p.child);
    close(p.to);
    return status;
}

/* A socket of this type keeps the pieces apart; what a read has no room
 * for is lost. */
static int feed_pieces(char **command, const char *text, size_t n,
                       size_t size)
{
    int ends[2];
    pid_t child;

    if (socketpair(AF_UNIX, SOCK_SEQPACKET | SOCK_CLOEXEC, 0, ends) != 0)
        fail("socketpair");
    child = start(command, ends[1], STDOUT_FILENO);
    close(ends[1]);
    while (n > 0) {
        size_t piece = n < size ? n : size;

        if (!send_all(ends[0], text, piece))
            break;
        text += piece;
        n -= piece;
    }
    close(ends[0]);
    return status_of(child);
}

/* A socket closed with a byte unread makes the other end's read fail, once
 * that end has read what was sent. */
static int feed_cut(char **command, const char *text, size_t n)
{
    int ends[2];
    pid_t child;

    if (socketpair(AF_UNIX, SOCK_STREAM | SOCK_CLOEXEC, 0, ends) != 0)
        fail("socketpair");
    child = start(command, ends[1], STDOUT_FILENO);
    send_all(ends[1], "x", 1);
    close(ends[1]);
    send_all(ends[0], text, n);
    close(ends[0]);
    return status_of(child);
}

/* Feeds the command in the way that the word says; -1 if it says none. */
static int feed(const char *how, char **command, const char *text, size_t n)
{
    long size = strtol(how, NULL, 10);

    if (strcmp(how, "answers") == 0)
        return feed_answers(command, text, n, 0);
    if (strncmp(how, "late:", 5) == 0)
        return feed_answers(command, text, n, strtoul(how + 5, NULL, 10));
    if (strcmp(how, "open") == 0)
        return feed_open(command, text, n);
    if (strcmp(how, "cut") == 0)
        return feed_cut(command, text, n);
    return size > 0 ? feed_pieces(command, text, n, (size_t)size) : -1;
}

int main(int argc, char **argv)
{
    static char text[TEXT_MOST];
    size_t n = fread(text, 1, sizeof text, stdin);
    int status = -1;

    signal(SIGALRM, give_up);
    signal(SIGPIPE, SIG_IGN);
    if (argc > 2)
        status = feed(argv[1], argv + 2, text, n);
    if (status < 0) {
        fputs("usage: feed answers|late:SIZE|open|SIZE|cut COMMAND... "
              "< frames\n", stderr);
        return 2;
    }
    return fflush(stdout) == 0 ? status : NO_CALL;
}
