/* The lines of the bench: each is opened in the library, and the plain side gets the configuration that the library made. */
#ifndef LINES_H
#define LINES_H

#include "plain.h"
#include "zangjulf.h"

struct line {
    const char *name;
    unsigned slaves, tasks; /* each slave has an area of outputs and one of inputs; the slaves take turns in the tasks */
    unsigned half;          /* bytes of outputs of a slave, and as many of inputs */
    bool has_seat;
};

#define LINES 5
extern const struct line LINE[LINES];

/* Both sides of a line, at the same point. */
struct sides {
    const struct line *line;
    struct zangjulf library;
    struct zangjulf_seat seat;
    struct plain plain;
    struct plain_seat plain_seat;
    uint8_t tasks[TASKS];
};

/* Ends the program. */
_Noreturn void give_up(const char *why);

/* Opens a line, writes its register blocks, and gives the plain side the same tables. */
void open_sides(struct sides *sides, const struct line *line);

/* The wire: inputs are the outputs' first byte and one, each datagram's counter is as expected. */
void pass(const struct sides *sides, uint8_t *frame);

#endif
