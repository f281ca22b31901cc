#include <inttypes.h>
#include <stdio.h>
#include "l6_offset.h"

enum { PIECE = 256 }; /* bytes: each buffer begins at a multiple of that */

static l6_offset memory = L6_OFFSET_CLOSED; /* of 64 MiB that the device has */

/* The offset of a buffer of so many bytes, or a fault. */
static int64_t buffer(uint32_t bytes) {
    int64_t place = l6_offset_get(&memory, (uint32_t)l6_offset_level_for((bytes + PIECE - 1) / PIECE));
    return place < 0 ? place : place * PIECE;
}

int main(void) {
    if (l6_offset_open(&memory, 18, 0, 1 << 18) != 0)
        return 1;
    l6_offset_reserve(&memory, 12, 0); /* the first MiB is the screen's */
    int64_t vertices = buffer(300000), indices = buffer(50000), texture = buffer(16 << 20);
    printf("vertices at %" PRId64 ", indices at %" PRId64 ", texture at %" PRId64 "\n", vertices, indices, texture);
    l6_offset_free(&memory, (uint32_t)(indices / PIECE));
    printf("freed again: %" PRId64 "\n", l6_offset_free(&memory, (uint32_t)(indices / PIECE)));
    for (int64_t at = l6_offset_next(&memory, 0); at >= 0; at = l6_offset_next(&memory, (uint32_t)at + 1))
        printf("%" PRId64 ": %d bytes\n", at * PIECE, PIECE << l6_offset_level(&memory, (uint32_t)at));
    printf("free %" PRId64 " bytes, the largest buffer %d\n", l6_offset_free_places(&memory) * PIECE,
           PIECE << l6_offset_largest(&memory));
    return l6_offset_close(&memory) != 0;
}
