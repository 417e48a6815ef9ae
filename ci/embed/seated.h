/* Drawn calls of seats, in one thread, beside a plain model: a seat views what was shown last, its newest post waits, and a taking does
 * it as a post of its task. What is shown is what `zangjulf_read` answers and `zangjulf_preview` would send then. Showings and posts are
 * counted, and an image says which post was taken last, whether it was refused, and whether line and seat are still there. */
#ifndef SEATED_H
#define SEATED_H

#include "task_epochs.h"
#include "zangjulf.h"

#define MOST_LOOKERS 3 /* of a line that is drawn */

struct mailbox;

/* What the present seats of a line share with it, or NULL: one of each task, and those that only look. */
struct owner {
    struct mailbox *of[ZANGJULF_TASKS], *looking[MOST_LOOKERS];
    uint32_t lookers;
};

/* One call of a seat, or of the owner for its seats, over a line with these epochs; posts are of zeros where that is said. */
void draw_seat_call(struct zangjulf *line, struct owner *owner, const struct task_epochs *epochs, bool of_zeros);

/* The line is about to be closed: each seat is shown a last image. Nothing is shared any more. */
void owner_closes(const struct zangjulf *line, struct owner *owner, const struct task_epochs *epochs);

/* All seats are closed. */
void close_seats(void);

#endif
