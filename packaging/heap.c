/* The three functions by which the library takes memory and gives it back, over malloc, realloc and free, for processors for
 * which the Rattle kit has none of its own. Their contracts are as in the kit's libc (rattle/libc/src/heap.rt): a block is
 * never of no bytes, and where there is no memory the pointer is to a byte that nobody owns. An alignment is 16 at most, as
 * malloc's is. */
#include <stdbool.h>
#include <stddef.h>
#include <stdlib.h>

/* Whether there is memory, and where. */
struct tried {
    bool is_there;
    void *at;
};

static char nobodys;

static struct tried tried(void *at) {
    return at ? (struct tried){true, at} : (struct tried){false, &nobodys};
}

struct tried rattle_alloc(size_t size, size_t align) {
    return tried(malloc(size ? size : align));
}

struct tried rattle_realloc(void *at, size_t old_size, size_t size, size_t align) {
    (void)old_size;
    return tried(realloc(at, size ? size : align));
}

void rattle_dealloc(void *at) {
    free(at);
}
