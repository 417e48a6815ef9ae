/* What the program hotline prints of the answers of calls (docs/use/PROGRAM.md), for callers in C: its words and numbers, and of
 * each call's answer the line that the program prints of the same command. */
#ifndef WORDS_H
#define WORDS_H

#include <stdio.h>

#include "zangjulf.h"

/* A handle that isn't opened: the number of a project's fault, or the task that needs too many datagrams. */
void print_opening(FILE *to, unsigned number, unsigned task);

/* A refusal that has nothing but its fault. */
void print_refusal(FILE *to, unsigned number);

/* An edit, as it was answered. */
void print_edit_answer(FILE *to, unsigned number, const struct zangjulf_cost *cost);

/* The declaration of a group, as it was answered. */
void print_declaration(FILE *to, unsigned number, const struct zangjulf_cost *cost);

/* A register write, whose frame was sent with a serial. */
void print_write(FILE *to, unsigned number, uint64_t serial, const uint8_t *frame, size_t size);

/* Tasks that are not sent, since so many register blocks are owed: the program sends none then. */
void print_unprogrammed(FILE *to, uint32_t owed);

/* Tasks that were sent, from a serial on. */
void print_sending(FILE *to, unsigned number, uint64_t serial, const uint8_t *frames, const struct zangjulf_sent *sent);

/* An arrival of frames of tasks, or of a register write. */
void print_arrival(FILE *to, unsigned number, const struct zangjulf_arrival *arrival, const struct zangjulf_outcome *outcomes);

/* What a task of an open line reads. */
void print_image(FILE *to, unsigned number, const struct zangjulf *line, uint8_t task, const struct zangjulf_image *image, const uint8_t *data);

/* The frame of a datagram of a task, as it would be sent next with a serial. */
void print_preview(FILE *to, unsigned number, unsigned task, uint64_t serial, const uint8_t *frame, size_t size);

/* The place of a variable. */
void print_place(FILE *to, unsigned number, uint32_t variable, const struct zangjulf_place *place);

/* The layout of an open line. */
void print_layout(FILE *to, const struct zangjulf *line);

/* The register blocks of a slave of an open line. */
void print_blocks(FILE *to, const struct zangjulf *line, uint16_t station);

/* Bytes as hexadecimal digits. */
void print_hex(FILE *to, const uint8_t *bytes, size_t size);

#endif
