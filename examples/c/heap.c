/* The three functions that the library takes its memory by, over malloc. */
#include <stdbool.h>
#include <stdlib.h>

struct rattle_tried {
    bool ok;
    void *at;
};

static char nothing;

static struct rattle_tried tried(void *at) {
    return at ? (struct rattle_tried){true, at} : (struct rattle_tried){false, &nothing};
}

struct rattle_tried rattle_alloc(size_t size, size_t align) { return tried(malloc(size ? size : align)); }

struct rattle_tried rattle_realloc(void *at, size_t old_size, size_t size, size_t align) {
    (void)old_size;
    return tried(realloc(at, size ? size : align));
}

void rattle_dealloc(void *at) { free(at); }
