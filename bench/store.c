/* The store alone, beside the plain buddy system of allocators.c: gets and frees, by time.

   store WORK KIND ROUNDS does so many rounds, and prints how many gets there were and the nanoseconds of the
   processor that they took. WORK is one of

       blocks     the gets and frees of blocks.deck, 1 to 128 words each
       single     a block of one word, got and freed beside blocks: nothing is halved, nothing is joined
       worst      a block of one word, got and freed in an empty store: ten halvings, ten joinings
       largest    a block of 1,024 words, got and freed

   and KIND is loop, cleared or proved: nothing, the buddy system in C that clears its blocks, and the store of
   the library (library/l6_store.h), which clears them, too. Compiled with -DNDEBUG neither has asserts: bench/run
   counts the buddy system in C with them and without, and the store without. */
#define main allocators_main
#include "allocators.c"
#undef main
#include "../library/l6_store.h"

static l6_store proved = L6_STORE_CLOSED;

static void start_proved(void) {
    int64_t opened = l6_store_open(&proved, UNITS);
    assert(opened == 0);
    (void)opened;
}

static uint64_t proved_get(uint32_t words) {
    return (uint64_t)l6_store_get(&proved, (uint32_t)l6_store_level_for(words));
}

static void proved_free(uint64_t place) {
    int64_t freed = l6_store_free(&proved, (uint32_t)place);
    assert(freed == 0);
    (void)freed;
}

static const struct allocator kinds[] = {
    {"loop", start_nothing, loop_get, loop_free, 0},
    {"cleared", start_buddy, cleared_get, buddy_free, 1},
    {"proved", start_proved, proved_get, proved_free, 1},
};

/* Gets and frees one block again and again. */
static void again(const struct allocator *by, uint32_t words, uint64_t rounds) {
    for (uint64_t round = 0; round < rounds; round++) {
        uint64_t place = by->get(words);
        assert(place != 0);
        by->release(place);
    }
    printf("%" PRIu64 "\n", rounds);
}

int main(int count, char **words) {
    for (size_t i = 0; count == 4 && i < sizeof kinds / sizeof *kinds; i++) {
        const struct allocator *by = &kinds[i];
        if (strcmp(words[2], by->name) != 0)
            continue;
        by->start();
        uint64_t rounds = strtoull(words[3], NULL, 10);
        int is_blocks = strcmp(words[1], "blocks") == 0, is_single = strcmp(words[1], "single") == 0;
        if (is_blocks)
            (void)by->get(TABLE); /* as the deck does */
        for (int taken = 0; is_single && taken < 3; taken++)
            (void)by->get(1); /* the fourth word is free, and its buddy is a block */
        uint64_t before = nanoseconds();
        if (is_blocks)
            run(by, rounds);
        else
            again(by, strcmp(words[1], "largest") == 0 ? UNIT : 1, rounds);
        printf("%" PRIu64 "\n", nanoseconds() - before);
        return 0;
    }
    fprintf(stderr, "usage: store blocks|single|worst|largest loop|cleared|proved ROUNDS\n");
    return 64;
}
