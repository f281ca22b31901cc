/* Places without words: an offset allocator by the buddy system, proved.

   A store has the places from a first one up to an end, and knows which of them are in blocks. What the places are is the
   program's: a piece of 256 bytes of a GPU's memory, a block of a disk, a page, a port. No call touches it.

   A block of level k, 0 to the top, has 2^k places and begins at a multiple of that. A top is at most 24, and the end at most
   2^top. A get gives the lowest place that is open; any open place may be reserved.

   Each call answers a number: 0 or more, or a fault, which is below 0; after a fault the store is as it was. Above each
   call are the faults that it may answer, without L6_OFFSET_; all but l6_offset_open, l6_offset_level_for and
   l6_offset_version also answer IS_CLOSED, of a closed store. Whatever numbers are passed, and in whatever order calls are
   made, a call is safe and returns. A fault that is passed on is no level and no place, so nothing is done with it.

   The caller owes three things:

   - a struct begins as L6_OFFSET_CLOSED;
   - its bytes are changed and copied by these calls alone;
   - one call at a time has it. A call whose pointer is const leaves the struct and the store as they were, but may write to
     the struct meanwhile: so two threads take turns with those, too. Since calls that open and close use the heap, they are
     made neither in a handler of a signal nor in the forked child of a process with threads.

   No call unwinds, and none is unwound through: the archive has no .eh_frame. Nothing calls back but the heap.

   A struct that goes out of use is closed before, or its memory stays taken. Two stores share nothing but the heap.

   A store takes 3 bytes for each of 2^top places, and some 100 more: l6_offset_open asks the heap three times, for
   L6_OFFSET_BYTES(top) together at most, and no other call asks. The heap is two functions that the program has, as heap.c. */
#ifndef L6_OFFSET_H
#define L6_OFFSET_H

#include <stdint.h>

/* Of this header: calls are added, and none is changed, while the first number stays. l6_offset_version answers that of the
   archive, as the number does. */
#define L6_OFFSET_VERSION "1.1.0"
#define L6_OFFSET_VERSION_NUMBER 10100

#ifdef __cplusplus
extern "C" {
#endif

/* A store, open or closed. All bytes 0 is a closed one, as memory of calloc is, and a static variable. */
typedef struct l6_offset {
    uint64_t is_open;
    void *held;
} l6_offset;

#define L6_OFFSET_CLOSED {0, 0}

/* How many bytes a store of a top asks for at most. */
#define L6_OFFSET_BYTES(top) (((uint64_t)3 << (top)) + 256)

enum {
    L6_OFFSET_MOST_TOP = 24
};

enum l6_offset_fault {
    L6_OFFSET_IS_CLOSED = -1,
    L6_OFFSET_IS_OPEN = -2,
    L6_OFFSET_BAD_PLACES = -3, /* a top above 24, or an end before the first place or past 2^top */
    L6_OFFSET_NO_MEMORY = -4,
    L6_OFFSET_BAD_LEVEL = -5, /* no block has this level, or so many places */
    L6_OFFSET_NO_BLOCK = -6,  /* no block begins at the place, or behind it */
    L6_OFFSET_NOT_OPEN = -7,  /* a block of the level may not be at the place */
    L6_OFFSET_FULL = -8       /* no place is open */
};

/* The version of the archive: 10,000 times the first number, 100 times the second, and the third. */
int64_t l6_offset_version(void);

/* Opens a store of the places from the first one up to an end, without blocks. It writes 3 bytes for each of 2^top places.
   Faults: IS_OPEN, BAD_PLACES, NO_MEMORY. */
int64_t l6_offset_open(l6_offset *store, uint32_t top, uint32_t first, uint32_t end);

/* Closes a store, and gives its memory back. */
int64_t l6_offset_close(l6_offset *store);

/* The least level whose blocks have so many places. Fault: BAD_LEVEL, above 2^24 places. */
int64_t l6_offset_level_for(uint32_t places);

/* Gets a block at the lowest open place, and answers that. It takes at most two steps for each level, and so do a reserve
   and a free. Faults: BAD_LEVEL, FULL. */
int64_t l6_offset_get(l6_offset *store, uint32_t level);

/* The place that a get would give: a step for each level. Faults: BAD_LEVEL, FULL. */
int64_t l6_offset_find(const l6_offset *store, uint32_t level);

/* Puts a block at a place, if it is a multiple of the block's size and all its places are open. Faults: BAD_LEVEL,
   NOT_OPEN. */
int64_t l6_offset_reserve(l6_offset *store, uint32_t level, uint32_t place);

/* Frees the block that begins at a place. Fault: NO_BLOCK. */
int64_t l6_offset_free(l6_offset *store, uint32_t place);

/* The level of the block that begins at a place: one look. Fault: NO_BLOCK. */
int64_t l6_offset_level(const l6_offset *store, uint32_t place);

/* The first place from one on at which a block begins. It looks at each place on the way. Fault: NO_BLOCK. */
int64_t l6_offset_next(const l6_offset *store, uint32_t from);

/* The level of the largest open piece: one look. Fault: FULL. */
int64_t l6_offset_largest(const l6_offset *store);

/* The level of the largest open piece that has a place, which begins at a multiple of its size. So a walk over all free
   pieces takes a call for each. It takes at most a step for each two levels: 300. Fault: NOT_OPEN. */
int64_t l6_offset_piece(const l6_offset *store, uint32_t place);

/* How many places lie in no block: one look. */
int64_t l6_offset_free_places(const l6_offset *store);

/* The most places that blocks had at once, since the store was opened or reset: one look. */
int64_t l6_offset_most(const l6_offset *store);

/* Frees all blocks. It writes all of the store's memory. */
int64_t l6_offset_reset(l6_offset *store);

#ifdef __cplusplus
}
#endif
#endif
