// Preloaded into yard by scenarios/check: a read or a write moves 1 to MOST_BYTES bytes, or fails as when a signal comes in between; the
// first of each sort always fails. At the end the file that FAULTY_IO_COUNTS names gets calls, failures and bytes, of reads and of writes.
#include <errno.h>
#include <stddef.h>
#include <stdio.h>
#include <stdlib.h>
#include <sys/syscall.h>
#include <unistd.h>

struct counts {
    unsigned long calls, failures, bytes;
};

static struct counts reads, writes;

static unsigned state = 1;

static unsigned chance(void) {
    state = state * 1103515245u + 12345u;
    return state >> 16;
}

static long moved(struct counts *counts, long number, int fd, const void *bytes, size_t count) {
    if (counts->calls++ == 0 || chance() % 3 == 0) {
        counts->failures++;
        errno = EINTR;
        return -1;
    }
    size_t most = 1 + chance() % MOST_BYTES;
    long done = syscall(number, fd, bytes, count < most ? count : most);
    if (done > 0)
        counts->bytes += (unsigned long)done;
    return done;
}

ssize_t read(int fd, void *bytes, size_t count) { return moved(&reads, SYS_read, fd, bytes, count); }

ssize_t write(int fd, const void *bytes, size_t count) { return moved(&writes, SYS_write, fd, bytes, count); }

__attribute__((destructor)) static void tell(void) {
    const char *path = getenv("FAULTY_IO_COUNTS");
    FILE *file = path ? fopen(path, "w") : NULL;
    if (!file)
        return;
    fprintf(file, "%lu %lu %lu %lu %lu %lu\n", reads.calls, reads.failures, reads.bytes, writes.calls, writes.failures, writes.bytes);
    fclose(file);
}
