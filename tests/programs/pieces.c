// Copies its input to a pipe in pieces of the given sizes, in turn: pieces SIZE..
// Each is written only when the reader has taken all before it, so that one read never gives two pieces.
#define _DEFAULT_SOURCE
#include <poll.h>
#include <sched.h>
#include <stdio.h>
#include <stdlib.h>
#include <sys/ioctl.h>
#include <unistd.h>

static void die(const char *why)
{
    perror(why);
    exit(1);
}

static void wait_until_taken(void)
{
    struct pollfd pipe = {.fd = STDOUT_FILENO};
    int left;
    while (ioctl(STDOUT_FILENO, FIONREAD, &left) == 0 && left > 0) {
        // a reader that has ended takes no more
        if (poll(&pipe, 1, 0) > 0)
            exit(1);
        sched_yield();
    }
}

static void write_piece(const char *piece, size_t n)
{
    wait_until_taken();
    while (n > 0) {
        ssize_t written = write(STDOUT_FILENO, piece, n);
        if (written < 0)
            die("cannot write");
        piece += written;
        n -= (size_t)written;
    }
}

int main(int argc, char **argv)
{
    static char piece[1 << 20];
    for (int i = 1; argc > 1; i = i + 1 < argc ? i + 1 : 1) {
        size_t size = strtoul(argv[i], NULL, 10);
        if (size == 0 || size > sizeof piece)
            break;
        size_t n = fread(piece, 1, size, stdin);
        if (n == 0)
            return ferror(stdin);
        write_piece(piece, n);
    }
    fputs("sizes from 1 to 1,048,576 are needed\n", stderr);
    return 2;
}
