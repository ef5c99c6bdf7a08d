/*
 * Reads a file whole into memory, writes it to another and syncs: the least that a program does which edits a file as a whole.
 *
 *   whole IN OUT
 */
#define _POSIX_C_SOURCE 200809L
#include <fcntl.h>
#include <stdio.h>
#include <stdlib.h>
#include <sys/stat.h>
#include <unistd.h>

static void fail(const char *what)
{
    perror(what);
    exit(1);
}

int main(int argc, char **argv)
{
    if (argc != 3) {
        fputs("usage: whole IN OUT\n", stderr);
        return 2;
    }
    struct stat about;
    int in = open(argv[1], O_RDONLY);
    if (in < 0 || fstat(in, &about) != 0)
        fail(argv[1]);
    size_t size = (size_t)about.st_size, done = 0;
    char *bytes = malloc(size + 1);
    if (bytes == NULL)
        fail("malloc");
    while (done < size) {
        ssize_t n = read(in, bytes + done, size - done);
        if (n <= 0)
            fail(argv[1]);
        done += (size_t)n;
    }
    int out = open(argv[2], O_WRONLY | O_CREAT | O_TRUNC, 0666);
    if (out < 0)
        fail(argv[2]);
    for (done = 0; done < size;) {
        ssize_t n = write(out, bytes + done, size - done);
        if (n < 0)
            fail(argv[2]);
        done += (size_t)n;
    }
    if (fsync(out) != 0 || close(out) != 0)
        fail(argv[2]);
    free(bytes);
    return close(in);
}
