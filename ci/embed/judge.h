/* What drawn calls answer is judged: the run ends with status 1 at the first answer that include/zangjulf.h doesn't allow. */
#ifndef JUDGE_H
#define JUDGE_H

#include "draws.h"

/* How many calls were drawn, and the name of the last one. */
extern unsigned long calls;
extern const char *call;

/* How often each number was answered. */
extern unsigned long answers[256];

/* Room for slices that calls write, and for those that they read. */
extern struct guarded outs, ins;

/* The call was answered in a way that it can't be. */
void fail(const char *what, unsigned number);

/* One of the allowed answers; 255 just of a closed handle. */
void expect(unsigned number, bool was_open, const char *allowed);

/* A slice to be written, filled so that a write of a refused call is seen; whether it is as it was filled. */
uint8_t *out_room(size_t size);
void expect_untouched(const uint8_t *out, size_t size, unsigned number);

#endif
