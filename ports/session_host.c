// What the programs l6db and l6ed ask of their host, for Node: memory, their words, files and the terminal.
//
// The program calls the functions of the first part, as on Linux it calls those of the C library. They call those
// that engine.js has for the module to import: each answers a number, and where the system refuses, errno's
// number below zero. One instance of the module plays one session. web/build says by PROGRAM which program it is.

#include "../web/memory.h"

#define IMPORT(name) __attribute__((import_module("host"), import_name(#name)))
#define MOST_AT_ONCE (1ul << 24) // bytes that are read or written at a time

enum { NO_SEEKING = 29 }; // errno's number

IMPORT(read) int host_read(int file, unsigned into, unsigned room);
IMPORT(write) int host_write(int file, unsigned from, unsigned count);
IMPORT(open) int host_open(unsigned path, unsigned bytes, int flags);
IMPORT(close) int host_close(int file);
IMPORT(isatty) int host_isatty(int file);

// ---- What the program calls

static int answered(int got) {
    if (got >= 0) return got;
    error = -got;
    return -1;
}

static unsigned at_once(Size count) { return (unsigned)(count < MOST_AT_ONCE ? count : MOST_AT_ONCE); }

long read(int file, Byte *into, Size room) {
    return answered(host_read(file, (unsigned)(Size)into, at_once(room)));
}

long write(int file, const Byte *from, Size count) {
    return answered(host_write(file, (unsigned)(Size)from, at_once(count)));
}

int open(const char *path, int flags, ...) {
    unsigned bytes = 0;
    while (path[bytes]) bytes++;
    return answered(host_open((unsigned)(Size)path, bytes, flags));
}

int close(int file) { return answered(host_close(file)); }

int isatty(int file) { return host_isatty(file); }

// Standard input is read once, from its beginning to its end.
long lseek(int file, long offset, int whence) {
    (void)file, (void)offset, (void)whence;
    error = NO_SEEKING;
    return -1;
}

// ---- What engine.js calls

// The proved program's own beginning. Its linkage is the one thing in the program that the build widens.
extern int program(void) __asm__(PROGRAM "::main+start");

// Plays the session; the exit status.
EXPORT(host_run) int host_run(void) { return program(); }
