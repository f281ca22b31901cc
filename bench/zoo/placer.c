/* Places by any rule: an allocator that gives the lowest open place, the highest, or any. It writes its calls down for
   `l6 trace --any-place`.

   placer RULE TOP CALLS SEED: RULE is lowest, highest or any. */
#include <stdint.h>
#include <stdio.h>
#include <stdlib.h>
#include <string.h>

enum { MOST = 1 << 20, NAMES = 1 << 15 };

static int top, blocks;
static uint8_t open_level[2 * MOST]; /* of each node: one more than the largest open level below it, or 0 */
static uint32_t seed;
static struct { int place, level; } live[NAMES];

static uint32_t number(void) {
    seed ^= seed << 13;
    seed ^= seed >> 17;
    return seed ^= seed << 5;
}

static uint8_t joined(int level, uint8_t lower, uint8_t upper) {
    return (uint8_t)(lower == level && upper == level ? level + 1 : lower > upper ? lower : upper);
}

static void settle(int node, int level) {
    while (node > 1) {
        node /= 2;
        level++;
        open_level[node] = joined(level, open_level[2 * node], open_level[2 * node + 1]);
    }
}

static int upper_first(char rule) {
    return rule == 'h' || (rule == 'a' && number() & 1);
}

static int get(int level, char rule) { /* a place, or -1 */
    if (open_level[1] <= level)
        return -1;
    int node = 1;
    for (int at = top; at > level; at--) {
        node = 2 * node + upper_first(rule);
        if (open_level[node] <= level)
            node ^= 1;
    }
    open_level[node] = 0;
    settle(node, level);
    return (node << level) - (1 << top);
}

static int release(int place, int level) { /* how often the piece was joined */
    int node = ((1 << top) + place) >> level, times = 0;
    open_level[node] = (uint8_t)(level + 1);
    settle(node, level);
    for (int at = level; node > 1 && open_level[node / 2] == at + 2; at++, times++)
        node /= 2;
    return times;
}

int main(int count, char **words) {
    if (count != 5)
        return 64;
    char rule = words[1][0];
    top = atoi(words[2]);
    int calls = atoi(words[3]);
    seed = (uint32_t)atoi(words[4]) * 2654435761u + 1;
    for (int node = (2 << top) - 1, level = 0; node > 0; node--) {
        level += node == (1 << (top - level)) - 1;
        open_level[node] = (uint8_t)(level + 1);
    }
    for (int call = 0; call < calls; call++) {
        int level = 0;
        while (level < top && number() % 100 < 45)
            level++;
        if (blocks == NAMES || (blocks > 0 && number() % 100 < 48)) {
            int at = (int)(number() % (uint32_t)blocks), place = live[at].place;
            printf("free %x = %d\n", place, release(place, live[at].level));
            live[at] = live[--blocks];
            continue;
        }
        int size = (1 << level) - (int)(number() % (uint32_t)((1 << level) / 2 + (level == 0)));
        int place = get(level, rule);
        if (place < 0) {
            printf("get - %d = none\n", size);
        } else {
            printf("get %x %d = %d\n", place, size, place);
            live[blocks].place = place;
            live[blocks++].level = level;
        }
    }
    printf("end %d\n", calls);
    return 0;
}
