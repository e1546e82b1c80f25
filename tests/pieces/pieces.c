/* Lets a program into which it is loaded (LD_PRELOAD) read its files in pieces, as pipes and slow devices may give them.

   PIECES=N       a read gives at most N bytes.
   PIECES=random  a read gives at most as many bytes as are drawn for it, of 1 to 4,096, by the number in PIECES_SEED.
   PIECES_FAIL=N  the Nth read fails.
   PIECES_LOG     the name of a file that tells at the end how many reads there were. */
#define _GNU_SOURCE
#include <errno.h>
#include <fcntl.h>
#include <stdint.h>
#include <stdio.h>
#include <stdlib.h>
#include <string.h>
#include <sys/syscall.h>
#include <unistd.h>

static size_t most = 4096;
static int drawn;
static uint64_t state;
static unsigned long reads, fails;

/* At most how many bytes the next read gives. */
static size_t next_most(void) {
    if (!drawn) return most;
    state = state * 6364136223846793005u + 1442695040888963407u;
    uint64_t word = state >> 33;
    /* Short pieces as often as long ones. */
    return 1 + (word >> 4) % ((size_t)1 << (word % 13));
}

ssize_t read(int file, void *bytes, size_t count) {
    size_t few = next_most();
    if (++reads == fails) {
        errno = EIO;
        return -1;
    }
    return syscall(SYS_read, file, bytes, count < few ? count : few);
}

__attribute__((constructor)) static void begin(void) {
    const char *pieces = getenv("PIECES"), *seed = getenv("PIECES_SEED"), *fail = getenv("PIECES_FAIL");
    drawn = pieces && strcmp(pieces, "random") == 0;
    if (pieces && !drawn) most = strtoul(pieces, NULL, 10);
    if (seed) state = strtoull(seed, NULL, 10);
    if (fail) fails = strtoul(fail, NULL, 10);
}

/* The program's end. */
void _exit(int status) {
    const char *log = getenv("PIECES_LOG");
    char line[32];
    int file = log ? open(log, O_CREAT | O_TRUNC | O_WRONLY, 0644) : -1;
    int length = snprintf(line, sizeof line, "%lu\n", reads);
    if (file >= 0 && write(file, line, length) < 0) status = 99;
    for (;;) syscall(SYS_exit_group, status);
}
