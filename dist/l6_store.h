/* The store of L6: a buddy system (K. C. Knowlton, A fast storage allocator, CACM 8(10), 1965), proved.

   A store has 1 to 255 units of 1,024 words. A word has 36 bits. A block of level k, 0 to 10, has 2^k words
   and begins at a multiple of 2^k; its place is the number of its first word. The first unit begins at place
   1024, so place 0 is no block, and all places are below 2^18. So a word has room for a place, and blocks can
   be linked by their words.

   Each call answers a number: 0 or more, or a fault, which is below 0; after a fault the store is as it was. A
   call that has nothing to tell answers 0. Above each call are the faults that it may answer, without
   L6_STORE_; all but l6_store_open, l6_store_level_for and l6_store_version also answer IS_CLOSED, of a closed
   store. Whatever numbers are passed, and in whatever order calls are made, a call is safe and returns. A fault
   that is passed on is no level, place, index or word, so nothing is done with it.

   The caller owes three things:

   - a struct begins as L6_STORE_CLOSED;
   - its bytes are changed and copied by these calls alone;
   - one call at a time has it. A call whose pointer is const leaves the struct and the store as they were,
     but may write to the struct meanwhile: so two threads take turns with those, too. Since calls that open
     and close use the heap, they are made neither in a handler of a signal nor in the forked child of a
     process with threads.

   No call unwinds, and none is unwound through: the archive has no .eh_frame. Nothing calls back but the heap.

   A struct that goes out of use is closed before, or its memory stays taken. Two stores share nothing but the
   heap, which is two functions that the program has: heap.c. */
#ifndef L6_STORE_H
#define L6_STORE_H

#include <stdint.h>

/* Of this header: calls are added, and none is changed, while the first number stays. l6_store_version answers
   that of the archive, as the number does. */
#define L6_STORE_VERSION "1.1.0"
#define L6_STORE_VERSION_NUMBER 10100

#ifdef __cplusplus
extern "C" {
#endif

/* A store, open or closed. All bytes 0 is a closed one, as memory of calloc is, and a static variable. */
typedef struct l6_store {
    uint64_t is_open;
    void *held;
} l6_store;

#define L6_STORE_CLOSED {0, 0}

enum {
    L6_STORE_LARGEST_LEVEL = 10, /* of a block */
    L6_STORE_UNIT = 1024,        /* words of a unit, and the place of the first one */
    L6_STORE_MOST_UNITS = 255
};

enum l6_store_fault {
    L6_STORE_IS_CLOSED = -1,
    L6_STORE_IS_OPEN = -2,
    L6_STORE_BAD_UNITS = -3,
    L6_STORE_NO_MEMORY = -4,
    L6_STORE_BAD_LEVEL = -5, /* no block has this level, or so many words */
    L6_STORE_NO_BLOCK = -6,  /* no block begins at the place */
    L6_STORE_NO_WORD = -7,   /* the block has no such word */
    L6_STORE_BAD_WORD = -8,  /* the word takes more than 36 bits */
    L6_STORE_NOT_ALIKE = -9, /* the blocks are one, or of two sizes */
    L6_STORE_FULL = -10      /* no piece is free */
};

/* The version of the archive: 10,000 times the first number, 100 times the second, and the third. */
int64_t l6_store_version(void);

/* Opens a store of so many units, without blocks. It writes each word. Faults: IS_OPEN, BAD_UNITS, NO_MEMORY. */
int64_t l6_store_open(l6_store *store, uint32_t units);

/* Closes a store, and gives its memory back. */
int64_t l6_store_close(l6_store *store);

/* The least level whose blocks have so many words. Fault: BAD_LEVEL, above 1,024 words. */
int64_t l6_store_level_for(uint32_t words);

/* Gets a block of zeros: its place, or 0 if no place is open. It halves a piece at most 10 times, and clears the
   block. Fault: BAD_LEVEL. */
int64_t l6_store_get(l6_store *store, uint32_t level);

/* The place that a get would give, or 0: a look at each level at most. Fault: BAD_LEVEL. */
int64_t l6_store_peek(const l6_store *store, uint32_t level);

/* Frees the block that begins at a place, and joins its piece at most 10 times. Fault: NO_BLOCK. */
int64_t l6_store_free(l6_store *store, uint32_t place);

/* The level of the block that begins at a place. Fault: NO_BLOCK. */
int64_t l6_store_live(const l6_store *store, uint32_t place);

/* Frees all blocks: the store is as when it was opened. It writes a tag for each place. */
int64_t l6_store_reset(l6_store *store);

/* The word of the block that begins at a place; indexes are counted from 0. Faults: NO_BLOCK, NO_WORD. */
int64_t l6_store_read(const l6_store *store, uint32_t place, uint32_t index);

/* Writes that word. Faults: NO_BLOCK, NO_WORD, BAD_WORD. */
int64_t l6_store_write(l6_store *store, uint32_t place, uint32_t index, uint64_t word);

/* Copies the words of a block into another of its size. Faults: NO_BLOCK, NOT_ALIKE. */
int64_t l6_store_copy(l6_store *store, uint32_t from, uint32_t to);

/* How often the last get halved a piece, or the last free joined two; 0 after a get that found no place. */
int64_t l6_store_moves(const l6_store *store);

/* How many units there are. */
int64_t l6_store_units(const l6_store *store);

/* How many words lie in no block. It goes through all lists. */
int64_t l6_store_free_words(const l6_store *store);

/* The largest level with a free piece: a look at each level at most. Fault: FULL. */
int64_t l6_store_largest(const l6_store *store);

/* How many free pieces a level has. It goes through their list. Fault: BAD_LEVEL. */
int64_t l6_store_pieces(const l6_store *store, uint32_t level);

/* The first free piece of a level, or 0. Gets take them in the order of for (p = first; p > 0; p = next) ..
   Fault: BAD_LEVEL. */
int64_t l6_store_first(const l6_store *store, uint32_t level);

/* The free piece of a level after one, or 0 if that is the last, or is no free piece of it. Fault: BAD_LEVEL. */
int64_t l6_store_next(const l6_store *store, uint32_t level, uint32_t place);

#ifdef __cplusplus
}
#endif
#endif
