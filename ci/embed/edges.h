/* What the parts of edges.c share: the project's text, slices whose end a sanitizer watches, and a fact that must hold. */
#ifndef EDGES_H
#define EDGES_H

#include "zangjulf.h"

#define EXPECT(fact) ((fact) ? (void)0 : fail(__FILE__, __LINE__, #fact))

/* Ends the run with status 1: the fact does not hold there. */
void fail(const char *file, int line, const char *fact);

/* The project's text, and its bytes. */
extern uint8_t text[1 << 16];
extern size_t length;

/* Options without seats that only look. */
extern const struct zangjulf_options options;

/* A slice of its exact size, of bytes 0xaa. */
uint8_t *slice(size_t size);

/* A simulated line over the project. */
void line_of_slaves(void);

#endif
