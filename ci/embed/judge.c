#include "judge.h"

#include <stdio.h>
#include <stdlib.h>
#include <string.h>

#include "zangjulf.h"

unsigned long calls, answers[256];
const char *call = "";
struct guarded outs, ins;

void fail(const char *what, unsigned number) {
    printf("fuzz: call %lu, %s: %s, answer %u\n", calls, call, what, number);
    exit(1);
}

void expect(unsigned number, bool was_open, const char *allowed) {
    answers[number]++;
    if ((number == ZANGJULF_CLOSED) == was_open) fail("closed handles and 255", number);
    if (number == ZANGJULF_CLOSED) return;
    if (!memchr(allowed, (int)number, strlen(allowed + 1) + 1)) fail("not an answer of this call", number);
}

uint8_t *out_room(size_t size) { return memset(last(&outs, size), 0xa5, size); }

void expect_untouched(const uint8_t *out, size_t size, unsigned number) {
    for (size_t i = 0; i < size; i++)
        if (out[i] != 0xa5) fail("a refused call wrote into its slice", number);
}
