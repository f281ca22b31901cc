/* Places alone, by the library (library/l6_offset.h), beside two allocators with lists outside of the memory, a buddy system and
   one with classes of sizes: gets and frees, by time.

   places WORK KIND TOP ROUNDS does so many rounds in a memory of 2^TOP places, and prints the nanoseconds of the processor
   that a round took. WORK says what a round is:

       none       a block of one place, got and freed, whose buddy is free: nothing is halved or joined
       all        a block of one place, got and freed in an empty memory: all levels are halved, and joined again
       mix        a get or a free of 1 to 256 places, about half of the memory in blocks

   and KIND is proved, lists, or classes, which is the way of S. Aaltonen's OffsetAllocator, written for this: a class of sizes for
   each float with 3 bits of mantissa, two levels of bits that say which have free pieces, and neighbours that are joined. With
   -DWITH_VMA there is vma, too (places_vma.cpp). */
#include <assert.h>
#include <stdint.h>
#include <stdio.h>
#include <stdlib.h>
#include <string.h>
#include <time.h>
#include "../library/l6_offset.h"

enum { MOST_TOP = 20, MOST = 1 << MOST_TOP, NONE = -1, HELD = 1 << 15 };

static l6_offset proved = L6_OFFSET_CLOSED;

static void start_proved(int top) {
    int64_t opened = l6_offset_open(&proved, (uint32_t)top, 0, UINT32_C(1) << top);
    assert(opened == 0);
    (void)opened;
}

static int64_t proved_get(int level) {
    return l6_offset_get(&proved, (uint32_t)level);
}

static void proved_free(int64_t place) {
    l6_offset_free(&proved, (uint32_t)place);
}

static int32_t heads[MOST_TOP + 1], after[MOST], before[MOST];
static uint8_t tags[MOST]; /* a level of a block, or 64 and one of a free piece, or 128 */
static int lists_top;

static void add(int32_t piece, int level) {
    after[piece] = heads[level];
    before[piece] = NONE;
    if (heads[level] != NONE)
        before[heads[level]] = piece;
    heads[level] = piece;
    tags[piece] = (uint8_t)(64 + level);
}

static void take(int32_t piece, int level) {
    *(before[piece] == NONE ? &heads[level] : &after[before[piece]]) = after[piece];
    if (after[piece] != NONE)
        before[after[piece]] = before[piece];
    tags[piece] = 128;
}

static void start_lists(int top) {
    lists_top = top;
    memset(tags, 128, sizeof tags);
    for (int level = 0; level <= top; level++)
        heads[level] = NONE;
    add(0, top);
}

static int64_t lists_get(int level) {
    int found = level;
    while (found <= lists_top && heads[found] == NONE)
        found++;
    if (found > lists_top)
        return NONE;
    int32_t piece = heads[found];
    take(piece, found);
    while (found > level) {
        found--;
        add(piece + (1 << found), found);
    }
    tags[piece] = (uint8_t)level;
    return piece;
}

static void lists_free(int64_t place) {
    int32_t piece = (int32_t)place;
    int level = tags[piece];
    while (level < lists_top && tags[piece ^ (1 << level)] == 64 + level) {
        take(piece ^ (1 << level), level);
        piece &= ~(1 << level);
        level++;
    }
    add(piece, level);
}

enum { CLASSES = 256, PIECES = 1 << 17 };

static struct piece {
    int32_t place, size, earlier, later, before, after; /* in its class, and beside it in memory */
    int used;
} pieces[PIECES];
static int32_t spare[PIECES], spares, firsts[CLASSES], at_place[MOST];
static uint32_t tops;
static uint8_t leaves[CLASSES / 8];

/* The class of a size, rounded down or up. */
static uint32_t class_of(uint32_t size, int up) {
    if (size < 8)
        return size;
    uint32_t shift = (uint32_t)(31 - __builtin_clz(size)) - 3;
    uint32_t more = up && (size & ((UINT32_C(1) << shift) - 1)) != 0;
    return ((shift + 1) << 3) + ((size >> shift) & 7) + more;
}

static int32_t add_piece(int32_t place, int32_t size) {
    uint32_t class = class_of((uint32_t)size, 0);
    int32_t made = spare[--spares];
    pieces[made] = (struct piece){place, size, NONE, firsts[class], NONE, NONE, 0};
    if (firsts[class] != NONE)
        pieces[firsts[class]].earlier = made;
    firsts[class] = made;
    leaves[class >> 3] |= (uint8_t)(1u << (class & 7));
    tops |= UINT32_C(1) << (class >> 3);
    return made;
}

static void unlist_piece(int32_t gone) {
    struct piece *piece = &pieces[gone];
    if (piece->later != NONE)
        pieces[piece->later].earlier = piece->earlier;
    if (piece->earlier != NONE) {
        pieces[piece->earlier].later = piece->later;
        return;
    }
    uint32_t class = class_of((uint32_t)piece->size, 0);
    firsts[class] = piece->later;
    if (piece->later == NONE) {
        leaves[class >> 3] &= (uint8_t)~(1u << (class & 7));
        if (leaves[class >> 3] == 0)
            tops &= ~(UINT32_C(1) << (class >> 3));
    }
}

static void start_classes(int top) {
    memset(firsts, -1, sizeof firsts);
    for (spares = 0; spares < PIECES; spares++)
        spare[spares] = PIECES - 1 - spares;
    add_piece(0, 1 << top);
}

static int64_t classes_get(int level) {
    int32_t size = 1 << level;
    uint32_t class = class_of((uint32_t)size, 1);
    uint32_t found = class >> 3, bits = leaves[found] & (0xffu << (class & 7));
    if (bits == 0) {
        uint32_t higher = found == 31 ? 0 : tops & (UINT32_MAX << (found + 1));
        if (higher == 0)
            return NONE;
        found = (uint32_t)__builtin_ctz(higher);
        bits = leaves[found];
    }
    int32_t given = firsts[found << 3 | (uint32_t)__builtin_ctz(bits)];
    struct piece *piece = &pieces[given];
    unlist_piece(given);
    piece->used = 1;
    if (piece->size > size) {
        int32_t rest = add_piece(piece->place + size, piece->size - size);
        pieces[rest].before = given;
        pieces[rest].after = piece->after;
        if (piece->after != NONE)
            pieces[piece->after].before = rest;
        piece->after = rest;
        piece->size = size;
    }
    at_place[piece->place] = given;
    return piece->place;
}

static void classes_free(int64_t place) {
    int32_t gone = at_place[place];
    struct piece piece = pieces[gone];
    int32_t start = piece.place, size = piece.size;
    if (piece.before != NONE && !pieces[piece.before].used) {
        struct piece *other = &pieces[piece.before];
        unlist_piece(piece.before);
        spare[spares++] = piece.before;
        start = other->place;
        size += other->size;
        piece.before = other->before;
    }
    if (piece.after != NONE && !pieces[piece.after].used) {
        struct piece *other = &pieces[piece.after];
        unlist_piece(piece.after);
        spare[spares++] = piece.after;
        size += other->size;
        piece.after = other->after;
    }
    spare[spares++] = gone;
    int32_t made = add_piece(start, size);
    pieces[made].before = piece.before;
    pieces[made].after = piece.after;
    if (piece.before != NONE)
        pieces[piece.before].after = made;
    if (piece.after != NONE)
        pieces[piece.after].before = made;
}

#ifdef WITH_VMA
void start_vma(int top);
int64_t vma_get(int level);
void vma_free(int64_t place);
#endif

static const struct kind {
    const char *name;
    void (*start)(int top);
    int64_t (*get)(int level);
    void (*free)(int64_t place);
} kinds[] = {
    {"proved", start_proved, proved_get, proved_free},
    {"lists", start_lists, lists_get, lists_free},
    {"classes", start_classes, classes_get, classes_free},
#ifdef WITH_VMA
    {"vma", start_vma, vma_get, vma_free},
#endif
};

static void one_block(const struct kind *kind, long rounds) {
    for (long round = 0; round < rounds; round++)
        kind->free(kind->get(0));
}

static void mixed(const struct kind *kind, int top, long rounds) {
    static int64_t held[HELD];
    static int levels[HELD];
    uint32_t number = 12345;
    int count = 0;
    long used = 0;
    for (long round = 0; round < rounds; round++) {
        number = number * 1664525u + 1013904223u;
        int level = __builtin_ctz((number >> 9) | 256);
        if (count < HELD && used < (1L << top) / 2) {
            int64_t place = kind->get(level);
            if (place >= 0) {
                held[count] = place;
                levels[count++] = level;
                used += 1L << level;
                continue;
            }
        }
        int at = (int)((number >> 4) % (uint32_t)count);
        kind->free(held[at]);
        used -= 1L << levels[at];
        held[at] = held[--count];
        levels[at] = levels[count];
    }
}

int main(int count, char **words) {
    assert(count == 5);
    int top = atoi(words[3]);
    long rounds = atol(words[4]);
    const struct kind *kind = kinds;
    while (strcmp(words[2], kind->name) != 0)
        kind++;
    assert(count == 5 && top <= MOST_TOP);
    kind->start(top);
    if (strcmp(words[1], "none") == 0) {
        int64_t place = kind->get(0);
        kind->get(0);
        kind->free(place);
    }
    clock_t start = clock();
    if (strcmp(words[1], "mix") == 0)
        mixed(kind, top, rounds);
    else
        one_block(kind, rounds);
    double nanoseconds = (double)(clock() - start) * 1e9 / CLOCKS_PER_SEC;
    printf("%.1f\n", nanoseconds / (double)rounds);
    return 0;
}
