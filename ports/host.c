// What the program asks of its host, for the static programs: memory, errno, and the words of the command
// line.
//
// The program calls the functions of the first part, as dist/l6 calls those of the toolchain's own library.
// They go to the C library, here musl, which is linked with the program. `build` says how the rest is done
// for each processor, and gives the name of the program, PROGRAM.

#include <errno.h>
#include <signal.h>
#include <stddef.h>
#include <stdlib.h>
#include <string.h>
#include <unistd.h>

// ---- What the program calls

typedef struct {
    _Bool ok;
    void *room; // never 0
} Tried;

static unsigned char nothing[16]; // what is answered where there is no memory; nobody reads or writes there

static Tried tried(void *room) { return (Tried){room != NULL, room ? room : nothing}; }

Tried rattle_alloc(size_t bytes, size_t align) { return tried(malloc(bytes ? bytes : align)); }

Tried rattle_realloc(void *room, size_t kept, size_t bytes, size_t align) {
    (void)kept;
    return tried(realloc(room, bytes ? bytes : align));
}

void rattle_dealloc(void *room) { free(room); }

int rattle_errno(void) { return errno; }
void rattle_set_errno(int number) { errno = number; }

static size_t word_count;
static char **words;

size_t rattle_arg_count(void) { return word_count; }

// The word of this number: how many bytes it has, -1 past the last, -2 where the room is too small. The first
// is the program's name whatever the file is called, so that its texts are those of its pages.
ptrdiff_t rattle_arg(size_t number, unsigned char *into, size_t room) {
    if (number >= word_count) return -1;
    const char *word = number ? words[number] : PROGRAM;
    size_t size = strlen(word);
    if (size > room) return -2;
    memcpy(into, word, size);
    return (ptrdiff_t)size;
}

// ---- How the program begins

static void keep_words(int count, char **given) {
    word_count = count < 0 ? 0 : (size_t)count;
    words = given;
}

#ifdef __x86_64__

#include <stdint.h>

// The program has a `main` of its own, which is that of dist/l6. The linker calls it __real_main, and the C
// library calls this function in its place (--wrap=main).
extern int __real_main(int count, char **given);

int __wrap_main(int count, char **given) {
    keep_words(count, given);
    return __real_main(count, given);
}

// Three functions of the GNU C library that this `main` calls, and musl does not have. By the third it looks
// whether the processor has the instructions that the program is made of.
void (*__sysv_signal(int number, void (*handler)(int)))(int) { return signal(number, handler); }

ssize_t __write(int file, const void *bytes, size_t count) { return write(file, bytes, count); }

// What the processor says of itself, and what of that the system lets programs use. The two differ for what
// has registers of its own that a system must save, and `main` asks for nothing of this kind.
typedef struct {
    uint32_t said[4];
    uint32_t usable[4];
} Leaf;

const Leaf *__x86_get_cpuid_feature_leaf(unsigned index) {
    static const uint32_t leaves[] = {1, 7, 0x80000001}; // by their numbers in the GNU C library
    static Leaf leaf;
    uint32_t which = index < sizeof leaves / sizeof *leaves ? leaves[index] : 0;
    uint32_t most, a, b, c, d;
    __asm__("cpuid" : "=a"(most), "=b"(b), "=c"(c), "=d"(d) : "a"(which & 0x80000000), "c"(0));
    leaf = (Leaf){{0}, {0}};
    if (which && which <= most) {
        __asm__("cpuid" : "=a"(a), "=b"(b), "=c"(c), "=d"(d) : "a"(which), "c"(0));
        leaf = (Leaf){{a, b, c, d}, {a, b, c, d}};
    }
    return &leaf;
}

#else

// The proved program's own beginning, to which `build` gives this name. Its `main` for x86-64, which would
// look at the processor, is left out.
extern int l6_program(void);

int main(int count, char **given) {
    keep_words(count, given);
    signal(SIGPIPE, SIG_IGN); // a closed pipe is a write that fails
    return l6_program();
}

#endif
