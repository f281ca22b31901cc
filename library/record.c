/* Records what a program asks of malloc: a library that is loaded before the C library, and writes a line for each block
   that is given or freed to the file that L6_RECORD names.

       cc -O2 -shared -fPIC library/record.c -o record.so
       L6_RECORD=calls LD_PRELOAD=./record.so PROGRAM

   A line is + ADDRESS SIZE or - ADDRESS, in hexadecimal and decimal. record.py makes a trace of them. The program itself is
   not changed; a child that it forks records nothing, and neither does a program that this child becomes. The last line is a
   point. It is missing where the program was killed or the file can't be written, after which nothing more is recorded; then
   record.py says so. */
#define _GNU_SOURCE
#include <dlfcn.h>
#include <errno.h>
#include <fcntl.h>
#include <malloc.h>
#include <stdatomic.h>
#include <stddef.h>
#include <stdint.h>
#include <stdlib.h>
#include <string.h>
#include <sys/file.h>
#include <unistd.h>

static void *(*real_malloc)(size_t);
static void *(*real_calloc)(size_t, size_t);
static void *(*real_realloc)(void *, size_t);
static void *(*real_memalign)(size_t, size_t);
static void (*real_free)(void *);

static unsigned char early[1 << 16]; /* what is asked for while the real functions are looked up */
static size_t early_taken;
static char lines[1 << 16];
static size_t count;
static int file = -1;
static int is_cut; /* whether a write has failed: what comes after it would be a record with a gap */
static pid_t owner;
static atomic_flag busy = ATOMIC_FLAG_INIT;

static void flush(void) {
    for (size_t done = 0; done < count;) {
        ssize_t wrote = write(file, lines + done, count - done);
        if (wrote < 0 && errno != EINTR) {
            is_cut = 1;
            break;
        }
        done += wrote > 0 ? (size_t)wrote : 0;
    }
    count = 0;
}

static void put(uint64_t number, unsigned base) {
    char digits[24];
    size_t length = 0;
    do
        digits[length++] = "0123456789abcdef"[number % base];
    while ((number /= base) != 0);
    while (length > 0)
        lines[count++] = digits[--length];
}

static void put_line(char sign, const void *block, size_t size) {
    lines[count++] = sign;
    lines[count++] = ' ';
    put((uintptr_t)block, 16);
    if (sign == '+') {
        lines[count++] = ' ';
        put(size, 10);
    }
    lines[count++] = '\n';
}

static void note(char sign, const void *block, size_t size) {
    if (file < 0 || block == NULL || getpid() != owner)
        return;
    int kept = errno;
    while (atomic_flag_test_and_set(&busy)) {
    }
    if (count > sizeof lines - 64 && !is_cut)
        flush();
    if (!is_cut)
        put_line(sign, block, size);
    atomic_flag_clear(&busy);
    errno = kept;
}

static void look_up(void) {
    real_calloc = (void *(*)(size_t, size_t))dlsym(RTLD_NEXT, "calloc");
    real_realloc = (void *(*)(void *, size_t))dlsym(RTLD_NEXT, "realloc");
    real_memalign = (void *(*)(size_t, size_t))dlsym(RTLD_NEXT, "memalign");
    real_free = (void (*)(void *))dlsym(RTLD_NEXT, "free");
    real_malloc = (void *(*)(size_t))dlsym(RTLD_NEXT, "malloc");
}

/* Opens the file, and empties it; or -1. A process that is recorded holds the lock, so one that it starts has none. */
static int opened(const char *name) {
    int made = open(name, O_WRONLY | O_CREAT | O_CLOEXEC, 0666);
    if (made < 0)
        return -1;
    if (flock(made, LOCK_EX | LOCK_NB) == 0 && (ftruncate(made, 0) == 0 || errno == EINVAL)) /* EINVAL: it is a pipe */
        return made;
    close(made);
    return -1;
}

__attribute__((constructor)) static void start(void) {
    const char *name = getenv("L6_RECORD");
    if (real_malloc == NULL)
        look_up();
    owner = getpid();
    if (name != NULL)
        file = opened(name);
}

__attribute__((destructor)) static void end(void) {
    if (file >= 0 && getpid() == owner && !is_cut) {
        if (count > sizeof lines - 64)
            flush();
        lines[count++] = '.';
        lines[count++] = '\n';
        flush();
    }
    file = -1;
}

static void *early_block(size_t size) {
    size_t at = (early_taken + 15) / 16 * 16;
    if (size > sizeof early - at)
        return NULL;
    early_taken = at + size;
    return early + at;
}

static int is_early(const void *block) {
    return (const unsigned char *)block >= early && (const unsigned char *)block < early + sizeof early;
}

void *malloc(size_t size) {
    static _Thread_local int is_looking;
    if (real_malloc == NULL) {
        if (is_looking)
            return early_block(size);
        is_looking = 1;
        look_up();
        is_looking = 0;
    }
    void *block = real_malloc(size);
    note('+', block, size);
    return block;
}

void *calloc(size_t number, size_t size) {
    if (real_calloc == NULL)
        return size != 0 && number > SIZE_MAX / size ? NULL : early_block(number * size);
    void *block = real_calloc(number, size);
    note('+', block, number * size);
    return block;
}

void *realloc(void *block, size_t size) {
    if (is_early(block)) {
        void *other = malloc(size);
        size_t left = (size_t)(early + sizeof early - (unsigned char *)block);
        return other == NULL ? NULL : memcpy(other, block, size < left ? size : left);
    }
    if (real_realloc == NULL)
        look_up();
    note('-', block, 0);
    void *other = real_realloc(block, size);
    if (other != NULL)
        note('+', other, size);
    else if (size != 0 && block != NULL) /* it was refused, and the block is as before */
        note('+', block, malloc_usable_size(block));
    return other;
}

void *reallocarray(void *block, size_t number, size_t size) {
    if (size != 0 && number > SIZE_MAX / size) {
        errno = ENOMEM;
        return NULL;
    }
    return realloc(block, number * size);
}

void *memalign(size_t align, size_t size) {
    if (real_memalign == NULL)
        look_up();
    void *block = real_memalign(align, size);
    note('+', block, size);
    return block;
}

void *aligned_alloc(size_t align, size_t size) {
    return memalign(align, size);
}

int posix_memalign(void **block, size_t align, size_t size) {
    void *given = memalign(align, size);
    if (given == NULL)
        return ENOMEM;
    *block = given;
    return 0;
}

void free(void *block) {
    if (block == NULL || is_early(block))
        return;
    if (real_free == NULL)
        look_up();
    note('-', block, 0);
    real_free(block);
}
