/*
 * start HOW FILE PROGRAM: runs PROGRAM on a standard input that gives the bytes of FILE (at most 65,536) and then fails to be read.
 *   reset   a socket whose other end was closed with a byte unread: the next read tells that once, and each read after it tells an end
 *   wait    a pipe that does not wait, and that may still be written to: no read after the bytes succeeds
 */
#define _POSIX_C_SOURCE 200809L
#include <fcntl.h>
#include <stdio.h>
#include <string.h>
#include <sys/socket.h>
#include <unistd.h>

static char bytes[65536];

int main(int count, char **names)
{
    if (count != 4) return 3;
    int reset = strcmp(names[1], "reset") == 0;
    int file = open(names[2], O_RDONLY);
    ssize_t size = read(file, bytes, sizeof bytes);
    int ends[2];
    if (size < 0 || (reset ? socketpair(AF_UNIX, SOCK_STREAM, 0, ends) : pipe(ends)) != 0) return 3;
    if (write(ends[1], bytes, (size_t)size) != size) return 3;
    if (reset) {
        if (write(ends[0], "", 1) != 1 || close(ends[1]) != 0) return 3;
    } else {
        if (fcntl(ends[0], F_SETFL, O_NONBLOCK) != 0) return 3;
    }
    if (dup2(ends[0], STDIN_FILENO) < 0) return 3;
    execl(names[3], names[3], (char *)NULL);
    perror(names[3]);
    return 3;
}
