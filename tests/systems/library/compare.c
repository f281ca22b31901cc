/* The proved store beside the plain buddy system of bench/allocators.c, call by call.

   compare CALLS makes so many random gets and frees on both. After each, the places, the refusals and all free
   lists must be the same; words are written and read, and calls with wild numbers must answer faults. */
#define main allocators_main
#include "../../../bench/allocators.c"
#undef main
#include "../../../library/l6_store.h"

enum { MOST_LIVE = 16384 };

static uint32_t seed = 1;

/* A random number of 16 bits. */
static uint32_t chance(void) {
    seed = seed * 69069u + 1u;
    return seed >> 16;
}

/* Whether the lists of both are the same, piece by piece. */
static int same_lists(l6_store *proved) {
    for (unsigned level = 0; level <= LARGEST; level++) {
        int64_t piece = l6_store_first(proved, level);
        int64_t count = 0;
        for (uint32_t other = lists[level]; other != 0; other = store[other].links.next) {
            if (piece != (int64_t)other)
                return 0;
            piece = l6_store_next(proved, level, other);
            count++;
        }
        if (piece != 0 || count != l6_store_pieces(proved, level))
            return 0;
    }
    return 1;
}

/* Calls with numbers that mean nothing: each must answer a fault, or do nothing. */
static void wild(l6_store *proved) {
    uint32_t place = chance() << 16 | chance();
    assert(l6_store_get(proved, 11 + chance()) == L6_STORE_BAD_LEVEL);
    assert(l6_store_free(proved, place | UINT32_C(1) << 30) == L6_STORE_NO_BLOCK);
    assert(l6_store_copy(proved, place, place) < 0);
    assert(l6_store_first(proved, 11 + chance()) == L6_STORE_BAD_LEVEL);
    assert(l6_store_next(proved, 3, place | UINT32_C(1) << 30) == 0);
    (void)l6_store_read(proved, place, chance());
}

int main(int count, char **words) {
    uint64_t calls = count > 1 ? strtoull(words[1], NULL, 10) : 1000000;
    static uint32_t places[MOST_LIVE], levels[MOST_LIVE];
    uint32_t live = 0;
    uint64_t gets = 0, refused = 0, frees = 0, used = 0;
    l6_store proved = L6_STORE_CLOSED;
    assert(l6_store_get(&proved, 0) == L6_STORE_IS_CLOSED);
    assert(l6_store_open(&proved, 0) == L6_STORE_BAD_UNITS);
    assert(l6_store_open(&proved, UNITS) == 0 && l6_store_open(&proved, UNITS) == L6_STORE_IS_OPEN);
    start_buddy();
    for (; calls > 0; calls--) {
        if (live == 0 || chance() % 2 != 0) {
            uint32_t level = chance() % 4 != 0 ? chance() % 4 : chance() % (LARGEST + 1);
            int64_t place = l6_store_get(&proved, level);
            assert(place == (int64_t)buddy_get(UINT32_C(1) << level));
            gets++;
            if (place == 0) {
                refused++;
            } else {
                uint32_t at = (uint32_t)place, last = (UINT32_C(1) << level) - 1;
                assert(l6_store_live(&proved, at) == level && l6_store_read(&proved, at, last) == 0);
                assert(l6_store_write(&proved, at, last, seed) == 0 && l6_store_read(&proved, at, last) == seed);
                assert(l6_store_read(&proved, at, last + 1) == L6_STORE_NO_WORD);
                assert(l6_store_write(&proved, at, 0, UINT64_C(1) << 36) == L6_STORE_BAD_WORD);
                places[live] = at;
                levels[live++] = level;
                used += UINT64_C(1) << level;
            }
        } else {
            uint32_t chosen = chance() % live, place = places[chosen];
            assert(l6_store_free(&proved, place) == 0);
            buddy_free(place);
            assert(l6_store_free(&proved, place) == L6_STORE_NO_BLOCK);
            assert(l6_store_live(&proved, place) == L6_STORE_NO_BLOCK);
            used -= UINT64_C(1) << levels[chosen];
            places[chosen] = places[--live];
            levels[chosen] = levels[live];
            frees++;
        }
        assert(same_lists(&proved));
        assert(l6_store_free_words(&proved) == (int64_t)(UNITS * UNIT - used));
        wild(&proved);
    }
    assert(l6_store_reset(&proved) == 0 && l6_store_free_words(&proved) == UNITS * UNIT);
    assert(l6_store_close(&proved) == 0 && l6_store_close(&proved) == L6_STORE_IS_CLOSED);
    printf("%" PRIu64 " gets, %" PRIu64 " refused, %" PRIu64 " frees\n", gets, refused, frees);
    return 0;
}
