/* Runs a program between two pipes that do not block: standard input reaches it in small pieces with pauses between them, and what it
 * writes is read late and in small pieces. Everything that it wrote goes to standard output. Usage: pipes PROGRAM. */
#define _GNU_SOURCE
#include <fcntl.h>
#include <stdlib.h>
#include <sys/wait.h>
#include <time.h>
#include <unistd.h>

static void pause_ms(long ms)
{
    struct timespec t = { ms / 1000, ms % 1000 * 1000000 };
    nanosleep(&t, NULL);
}

static void put_all(int fd, const char *bytes, ssize_t n)
{
    while (n > 0) {
        ssize_t put = write(fd, bytes, n);
        if (put <= 0)
            exit(2);
        bytes += put;
        n -= put;
    }
}

/* Copies in pieces of at most `most` bytes, with a pause before each `every` of them. */
static void copy_slowly(int from, int to, size_t most, int every)
{
    char piece[4096];
    int turn = 0;
    ssize_t n;
    for (;;) {
        if (turn++ % every == 0)
            pause_ms(5);
        n = read(from, piece, most);
        if (n <= 0)
            return;
        put_all(to, piece, n);
    }
}

int main(int argc, char **argv)
{
    int in[2], out[2];
    if (argc != 2 || pipe(in) || pipe(out))
        return 2;
    fcntl(in[0], F_SETFL, O_NONBLOCK);
    fcntl(out[1], F_SETFL, O_NONBLOCK);
    fcntl(out[1], F_SETPIPE_SZ, 4096);
    if (fork() == 0) {
        dup2(in[0], 0);
        dup2(out[1], 1);
        close(in[0]), close(in[1]), close(out[0]), close(out[1]);
        execl(argv[1], argv[1], (char *)NULL);
        _exit(127);
    }
    close(in[0]), close(out[1]);
    if (fork() == 0) {
        close(out[0]);
        copy_slowly(0, in[1], 101, 4);
        _exit(0);
    }
    close(in[1]);
    pause_ms(50);
    copy_slowly(out[0], 1, 1021, 20);
    while (wait(NULL) > 0)
        ;
    return 0;
}
