/* A plain model of task epochs: the epoch of the last edit that changed a task. It knows of the library only its configuration
 * (datagrams, places, blocks and stations), before an edit and after it. */
#ifndef TASK_EPOCHS_H
#define TASK_EPOCHS_H

#include <stdbool.h>
#include <stddef.h>
#include <stdint.h>

#include "zangjulf.h"

#define EPOCHS_VARIABLES 1024

struct task_epochs {
    uint32_t epoch;                   /* the present one: how many edits were accepted */
    uint32_t tasks[ZANGJULF_TASKS];   /* of each task the epoch of the last edit that changed it */
    uint64_t figures[ZANGJULF_TASKS]; /* of each task its datagrams, places and register blocks, as one number */
    uint32_t variables[EPOCHS_VARIABLES];
    size_t variable_count;
};

/* A line was opened with a project's text, or a group's text was declared. The variables are known from it. */
void epochs_opened(struct task_epochs *epochs, const struct zangjulf *line, const uint8_t *text, size_t size);
void epochs_declared(struct task_epochs *epochs, const uint8_t *text, size_t size);

/* An edit was accepted. Bit t of what is returned is set if the edit changed task t. */
uint8_t epochs_edited(struct task_epochs *epochs, const struct zangjulf *line);

/* Whether an epoch is one for posts and values of a task, 0 to 7. */
bool epochs_fit(const struct task_epochs *epochs, uint8_t task, uint32_t epoch);

/* What a post of so many bytes for an epoch is answered, beside the task's number of output bytes. */
unsigned epochs_post(const struct task_epochs *epochs, uint8_t task, uint32_t epoch, size_t size, size_t outputs);

/* An epoch for a post: mostly the present one, else one about it or about the task's, sometimes any. */
uint32_t some_epoch(const struct task_epochs *epochs, uint8_t task);

#endif
