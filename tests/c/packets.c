/* The listing program on an input that keeps the bounds of what was sent: a socket of packets loses what a read has no
   room for, so the program must offer all the room that it has left.

   packets PROGRAM STREAM: PROGRAM lists STREAM as a file, as one packet, and as packets of 4,000 bytes. All three must
   print the same and end alike. */

#define _POSIX_C_SOURCE 200809L

#include <fcntl.h>
#include <stdio.h>
#include <stdlib.h>
#include <string.h>
#include <sys/socket.h>
#include <sys/wait.h>
#include <unistd.h>

enum { MOST = 65536 };

static char stream[MOST + 1], as_file[MOST], as_packets[MOST];

static void fail(const char *what)
{
    perror(what);
    exit(1);
}

/* Reads in whole, at most `room` bytes. */
static size_t read_whole(int from, char *out, size_t room)
{
    size_t got = 0;
    ssize_t n;
    while (got < room && (n = read(from, out + got, room - got)) != 0) {
        if (n < 0)
            fail("read");
        got += (size_t)n;
    }
    return got;
}

/* What the program prints with this standard input, which is closed here; it must end with 0. */
static size_t listed(const char *program, int input, char *out)
{
    int ends[2], status;
    if (pipe(ends) != 0)
        fail("pipe");
    pid_t child = fork();
    if (child < 0)
        fail("fork");
    if (child == 0) {
        if (dup2(input, 0) < 0 || dup2(ends[1], 1) < 0)
            fail("dup2");
        close(ends[0]);
        close(ends[1]);
        close(input);
        execl(program, program, (char *)NULL);
        fail(program);
    }
    close(input);
    close(ends[1]);
    size_t got = read_whole(ends[0], out, MOST);
    close(ends[0]);
    if (waitpid(child, &status, 0) < 0)
        fail("waitpid");
    if (status != 0) {
        fprintf(stderr, "%s: ended with status %d\n", program, status);
        exit(1);
    }
    return got;
}

/* A socket that hands out these bytes in packets of at most `most`, and then ends. */
static int packets(const char *bytes, size_t length, size_t most)
{
    int ends[2], room = 4 * MOST;
    if (socketpair(AF_UNIX, SOCK_SEQPACKET, 0, ends) != 0)
        fail("socketpair");
    if (setsockopt(ends[1], SOL_SOCKET, SO_SNDBUF, &room, sizeof room) != 0)
        fail("setsockopt");
    for (size_t at = 0; at < length; at += most) {
        size_t size = length - at < most ? length - at : most;
        if (send(ends[1], bytes + at, size, 0) != (ssize_t)size)
            fail("send");
    }
    close(ends[1]);
    return ends[0];
}

int main(int count, char **words)
{
    if (count != 3) {
        fprintf(stderr, "usage: packets PROGRAM STREAM\n");
        return 2;
    }
    int file = open(words[2], O_RDONLY);
    if (file < 0)
        fail(words[2]);
    size_t length = read_whole(file, stream, sizeof stream);
    if (length > MOST || lseek(file, 0, SEEK_SET) != 0)
        fail(words[2]);
    size_t wanted = listed(words[1], file, as_file);
    if (wanted < 6 || memcmp(as_file + wanted - 6, "bytes\n", 6) != 0) {
        fprintf(stderr, "packets: %s is not listed\n", words[2]);
        return 1;
    }
    const size_t sizes[] = {MOST, 4000};
    for (size_t i = 0; i < 2; i++) {
        size_t got = listed(words[1], packets(stream, length, sizes[i]), as_packets);
        if (got != wanted || memcmp(as_packets, as_file, wanted) != 0) {
            fprintf(stderr, "packets: in packets of %zu bytes it prints\n%.*s", sizes[i], (int)got, as_packets);
            return 1;
        }
    }
    printf("packets: ok, listed as from a file\n");
    return 0;
}
