/* The gets and frees of blocks.deck, done by other allocators.

   allocators KIND ROUNDS prints the gets, the frees, the words asked for, and a number made of all places
   given (only of the buddy system, else 0), and on a second line the nanoseconds of the processor that the
   rounds took. KIND is one of

       loop            nothing is got: what the loop costs without an allocator
       malloc, calloc  those of the C library, a word taking 8 bytes
       buddy           the buddy system below, whose blocks are given as they are
       cleared         the same, and each block is cleared, as the language asks

   The buddy system is the plain one of the textbooks, with free lists in the free blocks. It gives the same
   places as the store of blocks.deck, so the numbers made of the places must be the same. */
#include <assert.h>
#include <inttypes.h>
#include <stdint.h>
#include <stdio.h>
#include <stdlib.h>
#include <string.h>
#include <time.h>

enum {
    UNITS = 8,
    LARGEST = 10,                /* a unit has 2^10 words, and no block more */
    UNIT = 1 << LARGEST,
    FIRST = UNIT,                /* the place of the first word; 0 is the place of no block */
    END = FIRST + UNITS * UNIT,
    FREE = 0x40,                 /* in a tag: the piece is free */
    NONE = 0x80,                 /* the tag of a place where no piece begins */
    TABLE = 128                  /* places of the table of blocks */
};

/* A word of the store. In the first word of a free piece are the links of its list; 0 is no piece. */
typedef union {
    uint64_t content;
    struct {
        uint32_t next, before;
    } links;
} word;

static word store[END];
static uint8_t tags[END];         /* at a piece's first word: its order, and FREE if it is free */
static uint32_t lists[LARGEST + 1]; /* the first free piece of each order, or 0 */

/* Puts a piece at the front of the free list of its order. */
static void link_piece(uint32_t piece, unsigned order) {
    uint32_t next = lists[order];
    store[piece].links.next = next;
    store[piece].links.before = 0;
    if (next != 0)
        store[next].links.before = piece;
    lists[order] = piece;
    tags[piece] = FREE | order;
}

/* Takes a free piece out of the list of its order. */
static void unlink_piece(uint32_t piece, unsigned order) {
    assert(tags[piece] == (FREE | order));
    uint32_t next = store[piece].links.next, before = store[piece].links.before;
    if (before != 0)
        store[before].links.next = next;
    else
        lists[order] = next;
    if (next != 0)
        store[next].links.before = before;
    tags[piece] = NONE;
}

/* Makes a store of free units, in order of their places. */
static void start_buddy(void) {
    memset(tags, NONE, sizeof tags);
    for (uint32_t unit = UNITS; unit > 0; unit--)
        link_piece(FIRST + (unit - 1) * UNIT, LARGEST);
}

/* The least order whose blocks have at least so many words. */
static unsigned order_of(uint32_t words) {
    unsigned order = 0;
    while ((1u << order) < words)
        order++;
    return order;
}

/* Gets a block: the first piece of the smallest order that will do, halved as long as it is too large. */
static uint64_t buddy_get(uint32_t words) {
    assert(words >= 1 && words <= UNIT);
    unsigned order = order_of(words), found = order;
    while (found <= LARGEST && lists[found] == 0)
        found++;
    if (found > LARGEST)
        return 0;
    uint32_t piece = lists[found];
    unlink_piece(piece, found);
    while (found > order) {
        found--;
        link_piece(piece + (1u << found), found);
    }
    tags[piece] = order;
    return piece;
}

/* The same, and its words are 0. */
static uint64_t cleared_get(uint32_t words) {
    uint64_t place = buddy_get(words);
    if (place != 0)
        memset(&store[place], 0, sizeof(word) << tags[place]);
    return place;
}

/* Frees a block: it is joined with its buddy as long as that is free and whole, and goes into its list. */
static void buddy_free(uint64_t place) {
    uint32_t piece = place;
    assert(place >= FIRST && place < END && tags[piece] <= LARGEST);
    unsigned order = tags[piece];
    tags[piece] = NONE;
    while (order < LARGEST) {
        uint32_t buddy = piece ^ (1u << order);
        if (tags[buddy] != (FREE | order))
            break;
        unlink_piece(buddy, order);
        piece &= ~(1u << order);
        order++;
    }
    link_piece(piece, order);
}

static void start_nothing(void) {}

static uint64_t loop_get(uint32_t words) {
    return words;
}

static void loop_free(uint64_t place) {
    (void)place;
}

static uint64_t malloc_get(uint32_t words) {
    return (uintptr_t)malloc(words * sizeof(word));
}

static uint64_t calloc_get(uint32_t words) {
    return (uintptr_t)calloc(words, sizeof(word));
}

static void library_free(uint64_t place) {
    free((void *)(uintptr_t)place);
}

struct allocator {
    const char *name;
    void (*start)(void);
    uint64_t (*get)(uint32_t words);
    void (*release)(uint64_t place);
    int has_places; /* whether the places it gives are those of the deck */
};

static const struct allocator allocators[] = {
    {"loop", start_nothing, loop_get, loop_free, 0},
    {"malloc", start_nothing, malloc_get, library_free, 0},
    {"calloc", start_nothing, calloc_get, library_free, 0},
    {"buddy", start_buddy, buddy_get, buddy_free, 1},
    {"cleared", start_buddy, cleared_get, buddy_free, 1},
};

/* Does so many rounds by an allocator, and prints the counts. */
static void run(const struct allocator *by, uint64_t rounds) {
    static uint64_t table[TABLE];
    uint64_t gets = 0, frees = 0, words = 0, places = 0;
    uint32_t number = 1;
    for (; rounds > 0; rounds--) {
        number = number * 69069u + 1u;
        uint64_t *entry = &table[number >> 25];
        if (*entry != 0) {
            by->release(*entry);
            *entry = 0;
            frees++;
            continue;
        }
        uint32_t mask = (1u << (number >> 22 & 7)) - 1u;
        uint32_t size = (number >> 8 & mask) + 1u;
        words += size;
        *entry = by->get(size);
        assert(*entry != 0);
        gets++;
        places = places * 31 + *entry;
    }
    places = by->has_places ? places & ((UINT64_C(1) << 36) - 1) : 0;
    printf("%" PRIu64 " %" PRIu64 " %" PRIu64 " %" PRIu64 "\n", gets, frees, words, places);
}

/* The nanoseconds of the processor that this process has used. */
static uint64_t nanoseconds(void) {
    struct timespec time;
    int status = clock_gettime(CLOCK_PROCESS_CPUTIME_ID, &time);
    assert(status == 0);
    (void)status;
    return (uint64_t)time.tv_sec * UINT64_C(1000000000) + (uint64_t)time.tv_nsec;
}

int main(int count, char **words) {
    if (count == 3) {
        for (size_t i = 0; i < sizeof allocators / sizeof *allocators; i++) {
            const struct allocator *by = &allocators[i];
            if (strcmp(words[1], by->name) != 0)
                continue;
            by->start();
            (void)by->get(TABLE); /* the deck's table is a block, too, and its first */
            uint64_t before = nanoseconds();
            run(by, strtoull(words[2], NULL, 10));
            printf("%" PRIu64 "\n", nanoseconds() - before);
            return 0;
        }
    }
    fprintf(stderr, "usage: allocators loop|malloc|calloc|buddy|cleared ROUNDS\n");
    return 64;
}
