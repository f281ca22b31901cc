#include <inttypes.h>
#include <stdio.h>
#include "l6_store.h"

int main(void) {
    l6_store store = L6_STORE_CLOSED;
    if (l6_store_open(&store, 8) != 0)
        return 1;
    int64_t level = l6_store_level_for(5); /* a block of 8 words */
    int64_t block = l6_store_get(&store, (uint32_t)level);
    if (block > 0) { /* 0: no place is open */
        l6_store_write(&store, (uint32_t)block, 0, 1965);
        int64_t word = l6_store_read(&store, (uint32_t)block, 0);
        printf("place %" PRId64 ", level %" PRId64 ", holds %" PRId64 "\n", block, level, word);
    }
    int64_t freed = l6_store_free(&store, (uint32_t)block);
    printf("freed: %" PRId64 ", joined %" PRId64 "\n", freed, l6_store_moves(&store));
    printf("freed again: %" PRId64 "\n", l6_store_free(&store, (uint32_t)block));
    return l6_store_close(&store) != 0;
}
