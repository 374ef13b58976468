/* `slow PROGRAM ARGUMENT..` runs a program whose standard output, of more than 4 KiB, is a pipe with room for 4 KiB. When the pipe is full it stops the program and
 * lets it go on, so that the call that waits for room ends with a part of its bytes written, and then writes what comes through the pipe. Its status is 0 where all
 * this was done and the program ended with status 0. */
#define _GNU_SOURCE
#include <fcntl.h>
#include <signal.h>
#include <stdbool.h>
#include <sys/ioctl.h>
#include <sys/wait.h>
#include <time.h>
#include <unistd.h>

enum { ROOM = 4096, MOST_WAITS = 1000 };

static void run(char **arguments, const int ends[2])
{
    dup2(ends[1], STDOUT_FILENO);
    close(ends[0]);
    close(ends[1]);
    execv(arguments[0], arguments);
    _exit(127);
}

/* Waits, ten seconds at most, until the pipe is full. */
static bool fills(int pipe_end)
{
    const struct timespec a_hundredth = {0, 10000000};
    int waiting = 0;
    for (int i = 0; i < MOST_WAITS && waiting < ROOM; i++) {
        nanosleep(&a_hundredth, NULL);
        if (ioctl(pipe_end, FIONREAD, &waiting) != 0)
            return false;
    }
    return waiting == ROOM;
}

static bool stops_and_goes_on(pid_t program)
{
    return kill(program, SIGSTOP) == 0 && waitpid(program, NULL, WUNTRACED) == program && kill(program, SIGCONT) == 0;
}

static bool copies(int from)
{
    char bytes[ROOM];
    ssize_t length;
    while ((length = read(from, bytes, sizeof bytes)) > 0)
        if (write(STDOUT_FILENO, bytes, (size_t)length) != length)
            return false;
    return length == 0;
}

int main(int count, char **arguments)
{
    int ends[2], status;
    if (count < 2 || pipe(ends) != 0 || fcntl(ends[1], F_SETPIPE_SZ, ROOM) != ROOM)
        return 2;
    pid_t program = fork();
    if (program < 0)
        return 2;
    if (program == 0)
        run(arguments + 1, ends);
    close(ends[1]);
    if (!fills(ends[0]) || !stops_and_goes_on(program) || !copies(ends[0])) {
        kill(program, SIGKILL);
        return 2;
    }
    return waitpid(program, &status, 0) != program || status != 0;
}
