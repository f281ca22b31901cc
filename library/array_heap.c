/* The heap of the library without malloc: an array, for a store of 8 units that is opened once. */
#include <stdbool.h>
#include <stddef.h>

enum { UNITS = 8 };

struct tried {
    bool ok;
    void *at;
};

static _Alignas(16) unsigned char room[12288 * (UNITS + 1) + 392];
static size_t taken;

struct tried rattle_alloc(size_t size, size_t align) {
    size_t begin = (taken + align - 1) / align * align;
    if (begin > sizeof room || size > sizeof room - begin)
        return (struct tried){false, room};
    taken = begin + size;
    return (struct tried){true, room + begin};
}

void rattle_dealloc(void *at) {
    (void)at;
}
