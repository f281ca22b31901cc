/* The heap of the library, by malloc. A program without malloc has these two functions over memory of its own. */
#include <stdbool.h>
#include <stddef.h>
#include <stdlib.h>

#ifdef __cplusplus
extern "C" {
#endif

/* A block of memory, aligned to 16 bytes. If there is none: false, and any pointer that is not null. */
struct tried {
    bool ok;
    void *at;
};

static char nothing;

struct tried rattle_alloc(size_t size, size_t align) {
    void *at = malloc(size != 0 ? size : align);
    struct tried tried = {at != NULL, at != NULL ? at : &nothing};
    return tried;
}

void rattle_dealloc(void *at) {
    free(at);
}

#ifdef __cplusplus
}
#endif
