/* Counts what the program that it is loaded before asks of memory, and refuses one request: that of
   the number in REFUSE_REQUEST, counted from 1; at 0 none. Requests are the calls of malloc and
   realloc. At the end it writes to the file that REFUSE_REPORT names

       how many requests there were, and whether one was refused: 'refused' or 'none'
       how many blocks were given and not given back
       the most bytes that were held at one time, and the bytes of all requests together

   as '27 refused 0 70208 81920'. A block counts with the size that it can be used to, which may be a
   little more than was requested. What realloc gives counts anew in the last number. */
#define _GNU_SOURCE
#include <dlfcn.h>
#include <errno.h>
#include <malloc.h>
#include <stddef.h>
#include <stdio.h>
#include <stdlib.h>

static void *(*real_malloc)(size_t);
static void *(*real_realloc)(void *, size_t);
static void (*real_free)(void *);
static long requests, refused_request, kept;
static size_t held, most_held, total;
static int refused;

__attribute__((constructor)) static void begin(void) {
    const char *chosen = getenv("REFUSE_REQUEST");
    real_malloc = dlsym(RTLD_NEXT, "malloc");
    real_realloc = dlsym(RTLD_NEXT, "realloc");
    real_free = dlsym(RTLD_NEXT, "free");
    requests = kept = 0;
    held = most_held = total = 0;
    refused_request = chosen ? atol(chosen) : 0;
}

__attribute__((destructor)) static void end(void) {
    const char *path = getenv("REFUSE_REPORT");
    long made = requests, left = kept;
    size_t most = most_held, all = total;
    FILE *report;
    refused_request = 0;
    report = path ? fopen(path, "w") : NULL;
    if (report) {
        fprintf(report, "%ld %s %ld %zu %zu\n", made, refused ? "refused" : "none", left, most, all);
        fclose(report);
    }
}

/* Counts a request. Whether it is the one to refuse. */
static int is_refused(void) {
    if (++requests != refused_request)
        return 0;
    refused = 1;
    errno = ENOMEM;
    return 1;
}

/* Counts the bytes of a block that was given. */
static void *given(void *block) {
    size_t size = malloc_usable_size(block);
    total += size;
    held += size;
    if (held > most_held)
        most_held = held;
    return block;
}

void *malloc(size_t size) {
    void *block;
    if (!real_malloc)
        real_malloc = dlsym(RTLD_NEXT, "malloc");
    block = is_refused() ? NULL : given(real_malloc(size));
    kept += block != NULL;
    return block;
}

void *realloc(void *old, size_t size) {
    size_t old_size = malloc_usable_size(old);
    void *block;
    if (!real_realloc)
        real_realloc = dlsym(RTLD_NEXT, "realloc");
    block = is_refused() ? NULL : real_realloc(old, size);
    if (!block)
        return NULL;
    held -= old_size;
    kept += old == NULL;
    return given(block);
}

void free(void *block) {
    if (!real_free)
        real_free = dlsym(RTLD_NEXT, "free");
    held -= malloc_usable_size(block);
    kept -= block != NULL;
    real_free(block);
}
