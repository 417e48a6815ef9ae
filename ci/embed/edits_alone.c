/* Linked to a master, it counts growths of memory beside those inside the opening of a line or a seat, or inside an edit, and says at
 * the end how many there were; then the program ends with status 1 if there was one. The calls of malloc and realloc, and those
 * that may take memory, are wrapped (--wrap). */
#include <stdatomic.h>
#include <stddef.h>
#include <stdio.h>
#include <unistd.h>

#include "zangjulf.h"

static _Thread_local bool may_take;
static atomic_long inside, beside;

void *__real_malloc(size_t size);
void *__wrap_malloc(size_t size) {
    atomic_fetch_add(may_take ? &inside : &beside, 1);
    return __real_malloc(size);
}

void *__real_realloc(void *old, size_t size);
void *__wrap_realloc(void *old, size_t size) {
    atomic_fetch_add(may_take ? &inside : &beside, 1);
    return __real_realloc(old, size);
}

static uint8_t over(uint8_t answer) {
    may_take = false;
    return answer;
}

uint8_t __real_zangjulf_open(struct zangjulf *handle, const struct zangjulf_options *options, const uint8_t *text, size_t length, uint8_t *task);
uint8_t __wrap_zangjulf_open(struct zangjulf *handle, const struct zangjulf_options *options, const uint8_t *text, size_t length, uint8_t *task) {
    may_take = true;
    return over(__real_zangjulf_open(handle, options, text, length, task));
}

uint8_t __real_zangjulf_seat_open(struct zangjulf *handle, uint8_t task, struct zangjulf_seat *seat);
uint8_t __wrap_zangjulf_seat_open(struct zangjulf *handle, uint8_t task, struct zangjulf_seat *seat) {
    may_take = true;
    return over(__real_zangjulf_seat_open(handle, task, seat));
}

uint8_t __real_zangjulf_connect(struct zangjulf *handle, uint16_t alias, bool asks, struct zangjulf_cost *cost);
uint8_t __wrap_zangjulf_connect(struct zangjulf *handle, uint16_t alias, bool asks, struct zangjulf_cost *cost) {
    may_take = true;
    return over(__real_zangjulf_connect(handle, alias, asks, cost));
}

uint8_t __real_zangjulf_disconnect(struct zangjulf *handle, uint16_t alias, bool asks, struct zangjulf_cost *cost);
uint8_t __wrap_zangjulf_disconnect(struct zangjulf *handle, uint16_t alias, bool asks, struct zangjulf_cost *cost) {
    may_take = true;
    return over(__real_zangjulf_disconnect(handle, alias, asks, cost));
}

__attribute__((destructor)) static void count(void) {
    long many = atomic_load(&beside);
    printf("growths of memory inside openings and edits: %ld, beside them: %ld\n", atomic_load(&inside), many);
    fflush(stdout);
    if (many || !atomic_load(&inside)) _exit(1);
}
