/* Answers that a caller does not look at: the header's calls warn where one is dropped. */
#ifndef IGNORE_H
#define IGNORE_H

#include <stdint.h>

static inline void ignore(uint8_t answer) { (void)answer; }

#endif
