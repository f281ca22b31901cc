/* Interrupts the program that it is loaded before, as a signal would: its first reads from standard
   input, as many as INTERRUPT_READS says, and its first writes to standard output, as many as
   INTERRUPT_WRITES says, move no byte and answer EINTR. */
#define _GNU_SOURCE
#include <dlfcn.h>
#include <errno.h>
#include <stdlib.h>
#include <sys/types.h>
#include <unistd.h>

static ssize_t (*real_read)(int, void *, size_t);
static ssize_t (*real_write)(int, const void *, size_t);
static long reads, writes;

static long number(const char *name) {
    const char *chosen = getenv(name);
    return chosen ? atol(chosen) : 0;
}

__attribute__((constructor)) static void begin(void) {
    real_read = dlsym(RTLD_NEXT, "read");
    real_write = dlsym(RTLD_NEXT, "write");
    reads = number("INTERRUPT_READS");
    writes = number("INTERRUPT_WRITES");
}

/* Takes one off, if one is left. Whether one was. */
static int is_interrupted(long *left) {
    if (*left == 0)
        return 0;
    --*left;
    errno = EINTR;
    return 1;
}

ssize_t read(int device, void *bytes, size_t size) {
    if (device == STDIN_FILENO && is_interrupted(&reads))
        return -1;
    return real_read(device, bytes, size);
}

ssize_t write(int device, const void *bytes, size_t size) {
    if (device == STDOUT_FILENO && is_interrupted(&writes))
        return -1;
    return real_write(device, bytes, size);
}

ssize_t __write(int device, const void *bytes, size_t size) {
    return write(device, bytes, size);
}
