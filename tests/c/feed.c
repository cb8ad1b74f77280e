/*
 * feed HOW PROGRAM ARGUMENT..: runs a program with a standard input or output that a shell can't make, and ends with its exit status.
 *
 *   late N         its input is a pipe that does not block; the first N bytes of ours are in it, and the rest does not come before its end
 *   bytes          its input is a pipe in which ours comes byte by byte, each when the one before has been taken
 *   closed-output  its output is a pipe that nobody reads
 */
#define _GNU_SOURCE
#include <fcntl.h>
#include <signal.h>
#include <stdio.h>
#include <stdlib.h>
#include <string.h>
#include <sys/ioctl.h>
#include <sys/wait.h>
#include <time.h>
#include <unistd.h>

static void fail(const char *what)
{
    perror(what);
    exit(125);
}

/* Moves one byte from our input to the pipe. Returns 0 at the end of our input, and where nobody reads the pipe any more. */
static int move_byte(int to)
{
    unsigned char byte;
    ssize_t got = read(STDIN_FILENO, &byte, 1);
    if (got < 0)
        fail("feed: read");
    return got == 1 && write(to, &byte, 1) == 1;
}

/* Waits until the pipe is empty, or the child has ended. Returns 0 if it has ended. */
static int wait_taken(int pipe_end, pid_t child)
{
    const struct timespec pause = {0, 20000};
    int left = 1;
    while (ioctl(pipe_end, FIONREAD, &left) == 0 && left > 0) {
        siginfo_t info = {0};
        if (waitid(P_PID, (id_t)child, &info, WEXITED | WNOHANG | WNOWAIT) == 0 && info.si_pid == child)
            return 0;
        nanosleep(&pause, NULL);
    }
    return 1;
}

/* Starts the program with one of its streams exchanged for an end of the pipe. */
static pid_t start(char **program, int end, int stream, const int *ends)
{
    pid_t child = fork();
    if (child < 0)
        fail("feed: fork");
    if (child == 0) {
        signal(SIGPIPE, SIG_DFL);
        if (dup2(end, stream) < 0)
            fail("feed: dup2");
        close(ends[0]);
        close(ends[1]);
        execvp(program[0], program);
        fail(program[0]);
    }
    return child;
}

int main(int argc, char **argv)
{
    const char *how = argc > 1 ? argv[1] : "";
    int late = strcmp(how, "late") == 0, bytes = strcmp(how, "bytes") == 0, output = strcmp(how, "closed-output") == 0;
    char **program = argv + (late ? 3 : 2);
    int ends[2];
    if (!(late || bytes || output) || program >= argv + argc) {
        fprintf(stderr, "usage: feed (late N | bytes | closed-output) PROGRAM ARGUMENT..\n");
        return 125;
    }
    signal(SIGPIPE, SIG_IGN);
    if (pipe(ends) != 0 || (late && fcntl(ends[0], F_SETFL, O_NONBLOCK) != 0))
        fail("feed: pipe");
    for (long left = late ? strtol(argv[2], NULL, 10) : 0; left > 0; left--)
        if (!move_byte(ends[1]))
            fail("feed: too little input");

    if (output)
        close(ends[0]);
    pid_t child = output ? start(program, ends[1], STDOUT_FILENO, ends) : start(program, ends[0], STDIN_FILENO, ends);
    while (bytes && move_byte(ends[1]) && wait_taken(ends[0], child))
        ;
    if (!late)
        close(ends[1]);
    int status;
    if (waitpid(child, &status, 0) != child)
        fail("feed: wait");
    return WIFEXITED(status) ? WEXITSTATUS(status) : 128 + WTERMSIG(status);
}
