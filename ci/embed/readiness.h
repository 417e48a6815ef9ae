/* A plain model of ready tasks, which are sent while register blocks are owed. For each FMMU register it keeps the tasks that its contents
 * may name, and whether anything may be in it. It knows what was written, answered, cleared and unplugged, and of the library only its configuration
 * (blocks and stations). */
#ifndef READINESS_H
#define READINESS_H

#include <stdbool.h>
#include <stddef.h>
#include <stdint.h>

#include "zangjulf.h"

#define READINESS_REGISTERS 1024
#define READINESS_SLAVES 512

/* An FMMU register of a slave, by the number of its block: bit t of `names` is set if one of its contents maps task t. */
struct held {
    uint16_t station;
    uint8_t number, names;
    bool is_unknown;
};

/* A declared slave; whether it came with the last edit. */
struct declared {
    uint16_t station;
    bool is_in_line, is_unplugged, has_come;
};

struct readiness {
    struct held held[READINESS_REGISTERS];
    size_t held_count;
    struct declared declared[READINESS_SLAVES]; /* in declared order, unless `is_ordered` is false */
    size_t declared_count;
    bool is_ordered;
};

/* What holds a task up: how many owed blocks of the line, and how many registers of slaves outside it; and the slaves. */
struct waiting {
    uint32_t blocks, outside;
    uint16_t holders[READINESS_SLAVES];
    size_t holder_count, holders_in_line;
};

/* The tasks that an FMMU's bytes map, as bits: none unless the FMMU is active (ETG.1000.4, 6.6). A task's logical addresses have its
 * number and one in their high byte. */
uint8_t named_by(const uint8_t *bytes, size_t size);

/* A line was opened with a project's text, or a group's text was declared. The slaves have their declared order from it. */
void readiness_opened(struct readiness *readiness, const struct zangjulf *line, const uint8_t *text, size_t size);
void readiness_declared(struct readiness *readiness, const uint8_t *text, size_t size);

/* An edit was accepted: registers of slaves that came are unknown. */
void readiness_edited(struct readiness *readiness, const struct zangjulf *line);

/* A register block was sent with these bytes; its write was answered well, and these are the bytes of its last write. */
void readiness_wrote(struct readiness *readiness, uint16_t station, uint8_t number, const uint8_t *bytes, size_t size);
void readiness_answered(struct readiness *readiness, uint16_t station, uint8_t number, const uint8_t *bytes, size_t size);

/* A declared slave has zeros in its FMMUs; one outside the line was unplugged. */
void readiness_cleared(struct readiness *readiness, uint16_t station);
void readiness_unplugged(struct readiness *readiness, uint16_t station);

/* What holds a task up, where `is_owed` tells which blocks of the line are owed. */
typedef bool (*owed_test)(const void *context, uint16_t station, uint8_t number, const struct zangjulf_block *block, const uint8_t *bytes);
void readiness_of(const struct readiness *readiness, const struct zangjulf *line, uint8_t task, owed_test is_owed, const void *context, struct waiting *waiting);

#endif
