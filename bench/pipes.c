/* Runs a command with a pipe that does not wait, and is slow at the other end of it.
     pipes reader COMMAND..    the command's standard output is the pipe: it is full before the first byte is taken
     pipes writer COMMAND..    its standard input is: the bytes of our own standard input come a few at a time */
#define _GNU_SOURCE
#include <fcntl.h>
#include <stdbool.h>
#include <stdio.h>
#include <string.h>
#include <sys/wait.h>
#include <unistd.h>

enum { OURS_TO_READ, OURS_TO_WRITE };
enum { PAUSE = 20000 /* microseconds */, FEW = 5, MANY = 65536 };

static int start(char **command, int stream, int end, int other)
{
    pid_t child = fork();
    if (child != 0)
        return child;
    fcntl(end, F_SETFL, fcntl(end, F_GETFL) | O_NONBLOCK);
    dup2(end, stream);
    close(end);
    close(other);
    execvp(command[0], command);
    _exit(127);
}

/* Copies, with a pause before each read. */
static bool copy(int from, int to, size_t most)
{
    static char bytes[MANY];
    ssize_t n;
    do {
        usleep(PAUSE);
        n = read(from, bytes, most);
        for (ssize_t done = 0, put; done < n; done += put)
            if ((put = write(to, bytes + done, (size_t)(n - done))) < 0)
                return false;
    } while (n > 0);
    return n == 0;
}

int main(int argc, char **argv)
{
    bool reader = argc > 2 && strcmp(argv[1], "reader") == 0, writer = argc > 2 && strcmp(argv[1], "writer") == 0, well;
    int ends[2], status;
    if ((!reader && !writer) || pipe(ends) < 0) {
        fprintf(stderr, "pipes reader|writer COMMAND..\n");
        return 2;
    }
    if (reader) {
        start(argv + 2, STDOUT_FILENO, ends[OURS_TO_WRITE], ends[OURS_TO_READ]);
        close(ends[OURS_TO_WRITE]);
        well = copy(ends[OURS_TO_READ], STDOUT_FILENO, MANY);
    } else {
        start(argv + 2, STDIN_FILENO, ends[OURS_TO_READ], ends[OURS_TO_WRITE]);
        close(ends[OURS_TO_READ]);
        well = copy(STDIN_FILENO, ends[OURS_TO_WRITE], FEW);
        close(ends[OURS_TO_WRITE]);
    }
    return wait(&status) > 0 && well && WIFEXITED(status) ? WEXITSTATUS(status) : 1;
}
