#include <inttypes.h>
#include <stdio.h>
#include "l6_store.h"

enum { KEY, LESS, MORE, WORDS }; /* the words of a node */

static l6_store store = L6_STORE_CLOSED;

/* The word of a node. */
static uint32_t part(uint32_t node, uint32_t word) {
    return (uint32_t)l6_store_read(&store, node, word);
}

/* Puts a key below a node, or makes the first one; returns the node, or 0 if the store is full. */
static uint32_t with_key(uint32_t node, uint32_t key) {
    if (node == 0) {
        int64_t made = l6_store_get(&store, (uint32_t)l6_store_level_for(WORDS));
        l6_store_write(&store, (uint32_t)made, KEY, key); /* of no block: NO_BLOCK, and nothing is written */
        return (uint32_t)made;
    }
    uint32_t side = key < part(node, KEY) ? LESS : MORE;
    l6_store_write(&store, node, side, with_key(part(node, side), key));
    return node;
}

/* Prints the keys of a tree in order, and frees its nodes. */
static void print_and_free(uint32_t node) {
    if (node == 0)
        return;
    print_and_free(part(node, LESS));
    printf("%" PRIu32 " ", part(node, KEY));
    print_and_free(part(node, MORE));
    l6_store_free(&store, node);
}

int main(void) {
    static const uint32_t keys[] = {1965, 36, 1024, 7, 1966, 255, 10};
    if (l6_store_open(&store, 1) != 0)
        return 1;
    uint32_t root = 0;
    for (size_t i = 0; i < sizeof keys / sizeof *keys; i++)
        root = with_key(root, keys[i]);
    printf("free words %" PRId64 "\n", l6_store_free_words(&store));
    print_and_free(root);
    printf("\nfree words %" PRId64 ", largest level %" PRId64 "\n", l6_store_free_words(&store),
           l6_store_largest(&store));
    return l6_store_close(&store) != 0;
}
