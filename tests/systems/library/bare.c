/* A program without a C library, for each processor that the libraries are made for: it begins at _start, has a heap of an
   array, and ends with the number of the first trial that fails, or 0. */
#include "l6_offset.h"
#include "l6_store.h"

typedef __SIZE_TYPE__ size;

struct tried {
    _Bool ok;
    void *at;
};

static _Alignas(16) unsigned char room[12288 * 2 + 4096];
static size taken;

struct tried rattle_alloc(size bytes, size align) {
    size begin = (taken + align - 1) / align * align;
    if (begin > sizeof room || bytes > sizeof room - begin)
        return (struct tried){0, room};
    taken = begin + bytes;
    return (struct tried){1, room + begin};
}

void rattle_dealloc(void *at) {
    (void)at;
}

void *memset(void *at, int byte, size count) {
    for (volatile unsigned char *next = at; count != 0; count--)
        *next++ = (unsigned char)byte;
    return at;
}

static _Noreturn void leave(long status) {
#if defined __aarch64__
    register long number __asm__("x8") = 93, first __asm__("x0") = status;
    __asm__ volatile("svc 0" : : "r"(number), "r"(first));
#elif defined __riscv
    register long number __asm__("a7") = 93, first __asm__("a0") = status;
    __asm__ volatile("ecall" : : "r"(number), "r"(first));
#else
    __asm__ volatile("syscall" : : "a"(60L), "D"(status));
#endif
    for (;;)
        ;
}

/* The number of the first trial that fails, or 0. What is right is from the pages, and by hand. */
static long trials(void) {
    static l6_store store = L6_STORE_CLOSED;
    static l6_offset places = L6_OFFSET_CLOSED;
    if (l6_store_version() != L6_STORE_VERSION_NUMBER || l6_offset_version() != L6_OFFSET_VERSION_NUMBER)
        return 1;
    if (l6_store_open(&store, 1) != 0 || l6_store_get(&store, 3) != 1024 || l6_store_moves(&store) != 7)
        return 2;
    if (l6_store_write(&store, 1024, 7, 68719476735) != 0 || l6_store_read(&store, 1024, 7) != 68719476735)
        return 3;
    if (l6_store_write(&store, 1024, 7, 68719476736) != L6_STORE_BAD_WORD || l6_store_free_words(&store) != 1016)
        return 4;
    if (l6_store_free(&store, 1024) != 0 || l6_store_moves(&store) != 7 || l6_store_largest(&store) != 10)
        return 5;
    if (l6_store_free(&store, 1024) != L6_STORE_NO_BLOCK || l6_store_close(&store) != 0)
        return 6;
    if (l6_offset_open(&places, 4, 0, 16) != 0 || l6_offset_get(&places, 1) != 0 || l6_offset_reserve(&places, 2, 8) != 0)
        return 7;
    if (l6_offset_reserve(&places, 0, 11) != L6_OFFSET_NOT_OPEN || l6_offset_find(&places, 2) != 4)
        return 8;
    if (l6_offset_piece(&places, 3) != 1 || l6_offset_most(&places) != 6 || l6_offset_next(&places, 1) != 8)
        return 9;
    if (l6_offset_free(&places, 8) != 0 || l6_offset_largest(&places) != 3 || l6_offset_free_places(&places) != 14)
        return 10;
    if (l6_offset_level_for(5) != 3 || l6_offset_close(&places) != 0 || l6_offset_get(&places, 0) != L6_OFFSET_IS_CLOSED)
        return 11;
    return 0;
}

_Noreturn void _start(void) {
    leave(trials());
}
