/* The yardstick of session_ingest: the same four calls of the disk for each message, and one line of output, in plain C. */
#include <fcntl.h>
#include <stdio.h>
#include <stdlib.h>
#include <string.h>
#include <unistd.h>

static void die(const char *what) { perror(what); exit(1); }

int main(int argc, char **argv)
{
    if (argc != 4) { fprintf(stderr, "four_calls FILE MESSAGES BYTES\n"); return 2; }
    long messages = atol(argv[2]);
    size_t length = (size_t)atol(argv[3]);
    int file = open(argv[1], O_RDWR | O_CREAT | O_TRUNC, 0644);
    if (file < 0) die("open");
    unsigned char *batch = malloc(length + 64);
    if (!batch) die("malloc");
    memset(batch, 'x', length + 64);
    size_t size = length + 47; /* gate, head, and the entry's fields beside its payload */
    off_t at = 0;
    unsigned char gate = 0, open_gate = 1;
    if (pwrite(file, &gate, 1, 0) != 1) die("pwrite");
    for (long i = 0; i < messages; i++) {
        batch[size - 1] = 0;
        if (pwrite(file, batch, size, at + 1) != (ssize_t)size) die("pwrite");
        if (fsync(file)) die("fsync");
        if (pwrite(file, &open_gate, 1, at) != 1) die("pwrite");
        if (fsync(file)) die("fsync");
        at += size;
        char line[64];
        int n = snprintf(line, sizeof line, "journalled %ld\n", i);
        if (write(1, line, (size_t)n) != n) die("write");
    }
    return 0;
}
