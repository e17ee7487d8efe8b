/* measure.c: the time and the peak memory of a command.
 *
 *   measure RESULT COMMAND...
 *
 * Writes to the file RESULT the microseconds of processor time and the
 * largest resident set in KiB, and ends with the command's exit status. */
#define _GNU_SOURCE
#include <stdio.h>
#include <sys/resource.h>
#include <sys/wait.h>
#include <unistd.h>

static long long microseconds(const struct rusage *use)
{
    return (use->ru_utime.tv_sec + use->ru_stime.tv_sec) * 1000000LL
         + use->ru_utime.tv_usec + use->ru_stime.tv_usec;
}

int main(int argc, char **argv)
{
    struct rusage use;
    FILE *result;
    pid_t child;
    int status;

    if (argc < 3) {
        fputs("usage: measure RESULT COMMAND...\n", stderr);
        return 2;
    }
    child = fork();
    if (child == 0) {
        execvp(argv[2], argv + 2);
        perror(argv[2]);
        _exit(127);
    }
    if (child < 0 || wait4(child, &status, 0, &use) != child) {
        perror("measure");
        return 2;
    }
    result = fopen(argv[1], "w");
    if (result == NULL
        || fprintf(result, "%lld %ld\n", microseconds(&use),
                   use.ru_maxrss) < 0 || fclose(result) != 0) {
        perror(argv[1]);
        return 2;
    }
    return WIFEXITED(status) ? WEXITSTATUS(status) : 128;
}
