/* A buddy system in C, as one might be, that writes its calls down for `l6 trace --store 1`: a pool of 16 KiB, and
   pieces of 16 bytes and more. With -DDEFECT it has a defect: pieces of 128 bytes are never joined. */
#include <stddef.h>
#include <stdint.h>
#include <stdio.h>

enum { SMALLEST = 16, ORDERS = 11, PIECES = 1 << (ORDERS - 1) };
enum state { INNER, FREE, TAKEN };

struct links {
    struct links *next, *before;
};

static _Alignas(16) unsigned char pool[SMALLEST * PIECES];
static struct links lists[ORDERS];
static struct {
    enum state state;
    unsigned order;
} tags[PIECES]; /* of the pieces of 16 bytes: what begins there */

static size_t index_of(const void *piece) {
    return (size_t)((const unsigned char *)piece - pool) / SMALLEST;
}

static void link_piece(size_t index, unsigned order) {
    struct links *piece = (struct links *)(pool + index * SMALLEST);
    *piece = (struct links){lists[order].next, &lists[order]};
    piece->next->before = piece;
    lists[order].next = piece;
    tags[index].state = FREE;
    tags[index].order = order;
}

static void unlink_piece(size_t index) {
    struct links *piece = (struct links *)(pool + index * SMALLEST);
    piece->next->before = piece->before;
    piece->before->next = piece->next;
    tags[index].state = INNER;
}

static void start(void) {
    for (unsigned order = 0; order < ORDERS; order++)
        lists[order] = (struct links){&lists[order], &lists[order]};
    link_piece(0, ORDERS - 1);
}

static void *buddy_get(size_t bytes) {
    unsigned order = 0;
    while (order < ORDERS && (size_t)SMALLEST << order < bytes)
        order++;
    unsigned found = order;
    while (found < ORDERS && lists[found].next == &lists[found])
        found++;
    if (found >= ORDERS)
        return NULL;
    size_t index = index_of(lists[found].next);
    unlink_piece(index);
    while (found > order) {
        found--;
        link_piece(index + ((size_t)1 << found), found);
    }
    tags[index].state = TAKEN;
    tags[index].order = order;
    return pool + index * SMALLEST;
}

/* Frees a block, and answers how often it was joined. */
static unsigned buddy_free(void *block) {
    size_t index = index_of(block);
    unsigned first = tags[index].order, order = first;
    tags[index].state = INNER;
    while (order < ORDERS - 1) {
        size_t buddy = index ^ (size_t)1 << order;
        if (tags[buddy].state != FREE || tags[buddy].order != order)
            break;
#ifdef DEFECT
        if (order == 3)
            break;
#endif
        unlink_piece(buddy);
        index &= ~((size_t)1 << order);
        order++;
    }
    link_piece(index, order);
    return order - first;
}

static void *traced_get(unsigned name, size_t bytes) {
    void *block = buddy_get(bytes);
    printf("get b%u %zu = ", name, (bytes + SMALLEST - 1) / SMALLEST);
    if (block == NULL)
        printf("none\n");
    else
        printf("%zu\n", 1024 + index_of(block));
    return block;
}

static void traced_free(unsigned name, void *block) {
    printf("free b%u = %u\n", name, buddy_free(block));
}

int main(void) {
    static void *blocks[64];
    uint32_t number = 1;
    start();
    for (int calls = 0; calls < 2000; calls++) {
        number = number * 69069u + 1u;
        unsigned name = number >> 26;
        if (blocks[name] != NULL) {
            traced_free(name, blocks[name]);
            blocks[name] = NULL;
        } else {
            blocks[name] = traced_get(name, 1 + (number >> 8) % 600);
        }
    }
    return 0;
}
