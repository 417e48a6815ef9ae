/* Lines over which calls are drawn: their handles, their models, the frames that they sent, and the scripts of their calls. */
#ifndef DRAWN_LINES_H
#define DRAWN_LINES_H

#include <stdio.h>

#include "model.h"
#include "seated.h"

/* A handle, its model, its seats, frames that it sent, most of them as its slaves made of them, and where its commands and their
 * answers are written, or NULL. */
#define FRAMES 8
struct line {
    struct zangjulf handle;
    struct model model;
    struct owner owner;
    uint8_t frames[FRAMES][ZANGJULF_FRAME];
    size_t frame_sizes[FRAMES], last_frame;
    FILE *script, *answers;
};

/* The folder of scripts, or NULL; how many commands were written there. */
extern const char *folder;
extern unsigned long commands;

/* The script of a line that was opened from a text with this answer begins; it ends, if there is one. */
void begin_script(struct line *line, const uint8_t *text, size_t size, unsigned number, unsigned task);
void end_script(struct line *line);

/* Whether an answered call goes into the line's script: not one that changed nothing and for which the program has no word. */
bool is_scripted(struct line *line, unsigned number);

/* Writes a command. */
void say(struct line *line, const char *format, ...);

/* Keeps a frame that was sent, mostly as the line's slaves make of it. */
void keep(struct line *line, const uint8_t *frame, size_t size);

/* Calls of register blocks, each drawn and compared with the model: one block, all that a frame holds, what the tasks wait for, a slave
 * that is cleared or unplugged, and one that lost its registers. */
void writing(struct line *line, bool was_open);
void writing_all(struct line *line, bool was_open, bool further);
void waiting(struct line *line, bool was_open);
void clearing(struct line *line, bool was_open);
void losing(struct line *line, bool was_open);

/* What holds each task up, as the model says; the mask of ready tasks. */
uint8_t ready_by_model(const struct line *line, struct waiting *waits);

#endif
