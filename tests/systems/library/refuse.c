/* A store that is opened while each of its requests for memory is refused in turn. */
#include <assert.h>
#include <stdbool.h>
#include <stdio.h>
#include <stdlib.h>
#include "../../../library/l6_store.h"

struct tried {
    bool ok;
    void *at;
};

static char nothing;
static int left, held;

struct tried rattle_alloc(size_t size, size_t align) {
    (void)align;
    if (left-- <= 0)
        return (struct tried){false, &nothing};
    held++;
    return (struct tried){true, malloc(size)};
}

void rattle_dealloc(void *at) {
    held--;
    free(at);
}

int main(void) {
    for (int given = 0; given < 6; given++) {
        l6_store store = L6_STORE_CLOSED;
        left = given;
        int opened = (int)l6_store_open(&store, 3);
        int kept = held;
        int got = (int)l6_store_get(&store, 10);
        int closed = (int)l6_store_close(&store);
        printf("%d given: open %d, keeps %d, get %d, close %d, keeps %d\n", given, opened, kept, got, closed, held);
    }
    return 0;
}
