// What the program asks of its host, for a page: memory, its words, input and outputs.
//
// The program calls the functions of the first part, as on Linux it calls those of the C library. The
// page calls those of the last part, whose names begin with `host_`: it puts the words and the input into
// memory, has the program do the job, and takes what went out. One instance of the module does one job.

#include "memory.h"

// ---- What the program calls

static Text input;
static Size taken; // bytes of the input

long read(int file, Byte *into, Size room) {
    if (file != 0) {
        error = BAD_FILE;
        return -1;
    }
    Size left = input.count - taken;
    Size count = room < left ? room : left;
    __builtin_memcpy(into, input.bytes + taken, count);
    taken += count;
    return (long)count;
}

static Text outputs[2]; // standard output and standard error

long write(int file, const Byte *from, Size count) {
    if (file != 1 && file != 2) {
        error = BAD_FILE;
        return -1;
    }
    Text *text = &outputs[file - 1];
    if (!has_room(text, count)) {
        error = NO_SPACE;
        return -1;
    }
    __builtin_memcpy(text->bytes + text->count, from, count);
    text->count += count;
    return (long)count;
}

// ---- What the page calls

// The proved program's own beginning. Its linkage is the one thing in the program that the build widens.
extern int program(void) __asm__("l6::main+start");

// Room for the input, of so many bytes; the page fills it. 0 where there is none.
EXPORT(host_input) unsigned host_input(unsigned bytes) {
    if (!has_room(&input, bytes)) return 0;
    input.count = bytes;
    return (unsigned)(Size)input.bytes;
}

// Does the job; the exit status.
EXPORT(host_run) int host_run(void) { return program(); }

// Where what went out begins, 0 for standard output and 1 for standard error, and how long it is.
EXPORT(host_output) unsigned host_output(unsigned which) { return (unsigned)(Size)outputs[which & 1].bytes; }
EXPORT(host_output_bytes) unsigned host_output_bytes(unsigned which) {
    return (unsigned)outputs[which & 1].count;
}
