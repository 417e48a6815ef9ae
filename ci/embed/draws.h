/* What is drawn: numbers, also of a project that is read, and room for slices. */
#ifndef DRAWS_H
#define DRAWS_H

#include <stdbool.h>
#include <stddef.h>
#include <stdint.h>

#define PAGE 4096

/* Numbers are drawn as a seed says. */
void begin_draws(uint64_t seed);

/* The next number; the next one below another. */
uint64_t draw(void);
uint64_t below(uint64_t n);

/* A length: mostly small or enough, sometimes any. */
size_t some_length(size_t most);

/* Room that ends with its last page that can be touched. */
struct guarded {
    uint8_t *end;
    size_t size;
};
struct guarded guard(size_t size);

/* So many bytes at that end. */
uint8_t *last(const struct guarded *room, size_t size);

/* A project's text, which a line `%%` may end; false where there is none. */
bool read_project(const char *name);
extern char text[1 << 16];
extern size_t text_size;

/* A number that the project has, or a group that was declared meanwhile, sometimes any. */
uint16_t some_station(void);
uint16_t some_alias(void);
uint16_t some_pdo(void);

/* The text of a group, mostly of one slave with one area whose numbers are free or taken, sometimes another one or spoilt, at
 * the end of a room; `*size` is its bytes. */
uint8_t *some_group(const struct guarded *room, size_t *size);

#endif
