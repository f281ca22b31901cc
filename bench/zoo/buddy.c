/* A textbook buddy system in C, the one whose bugs are in bugs/: lists first in, first out, and of a piece that is halved
   the upper half is given. It writes its calls down for `l6 trace --any-place --units 1`. */
#include <stdint.h>
#include <stdio.h>
#include <stdlib.h>

enum { TOP = 10, PLACES = 1 << TOP, BASE = 1024, NONE = -1 };

static int head[TOP + 1], tail[TOP + 1], after[PLACES], before[PLACES];
static int free_order[PLACES], order_of[PLACES]; /* of what begins at a place: NONE where nothing does */

static void add(int place, int order) { /* at the end of its list */
    before[place] = tail[order];
    after[place] = NONE;
    *(tail[order] == NONE ? &head[order] : &after[tail[order]]) = place;
    tail[order] = place;
    free_order[place] = order;
}

static void take(int place) { /* out of its list */
    int order = free_order[place];
    *(before[place] == NONE ? &head[order] : &after[before[place]]) = after[place];
    *(after[place] == NONE ? &tail[order] : &before[after[place]]) = before[place];
    free_order[place] = NONE;
}

static void start(void) {
    for (int order = 0; order <= TOP; order++)
        head[order] = tail[order] = NONE;
    for (int place = 0; place < PLACES; place++)
        free_order[place] = order_of[place] = NONE;
    add(0, TOP);
}

static int order_for(int size) {
    int order = 0;
    while ((1 << order) < size)
        order++;
    return order;
}

static int get(int size) { /* a place, or NONE */
    int order = order_for(size), found = order;
    while (found <= TOP && head[found] == NONE)
        found++;
    if (found > TOP)
        return NONE;
    int place = head[found];
    take(place);
    while (found > order) {
        found--;
        add(place, found);
        place += 1 << found;
    }
    order_of[place] = order;
    return place;
}

static int release(int place) { /* how often the piece was joined */
    int order = order_of[place], joined = 0;
    order_of[place] = NONE;
    while (order < TOP) {
        int buddy = place ^ (1 << order);
        if (free_order[buddy] != order)
            break;
        take(buddy);
        place &= ~(1 << order);
        order++;
        joined++;
    }
    add(place, order);
    return joined;
}

int main(int count, char **words) {
    static int places[256], sizes[256];
    uint32_t number = 1;
    int answers = 0, calls = count > 1 ? atoi(words[1]) : 4000;
    setvbuf(stdout, NULL, _IOLBF, 0); /* whole lines, if a bug ends the program */
    start();
    while (answers < calls) {
        number = number * 1664525u + 1013904223u;
        int name = (int)(number >> 24), size = 1 + (int)((number >> 8) % (number & 128 ? 16 : 150));
        if (sizes[name] != 0) {
            printf("free %x = %d\n", name, release(places[name]));
            sizes[name] = 0;
        } else {
            places[name] = get(size);
            if (places[name] == NONE) {
                printf("get %x %d = none\n", name, size);
            } else {
                printf("get %x %d = %d\n", name, size, BASE + places[name]);
                sizes[name] = size;
            }
        }
        answers++;
    }
    printf("end %d\n", answers);
    return 0;
}
