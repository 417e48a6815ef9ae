#include "growths.h"

#include <stdbool.h>
#include <stddef.h>

long live, taken, left = -1;

void *__real_malloc(size_t size);
void *__real_realloc(void *old, size_t size);
void __real_free(void *old);

static bool is_refused(void) { return left >= 0 && left-- == 0; }

void *__wrap_malloc(size_t size) {
    if (is_refused()) return NULL;
    live++, taken++;
    return __real_malloc(size);
}

void *__wrap_realloc(void *old, size_t size) {
    if (is_refused()) return NULL;
    live += !old, taken++;
    return __real_realloc(old, size);
}

void __wrap_free(void *old) {
    live -= !!old;
    __real_free(old);
}
