/* A plain model of what a line answers about its sendings: of each arrival its kind, and the outcomes with their names, counts and
 * places in the frame; each datagram's data, how old they are, and how they compare with the task's last sending; the counters, and what
 * each slave adds to one; which register blocks are owed, which tasks wait for them (readiness.h), also after an edit, and which tasks
 * an edit changes (task_epochs.h).
 * It knows the frames and the answers that were accepted, and of the library only its configuration (datagrams, blocks,
 * stations). */
#ifndef MODEL_H
#define MODEL_H

#include <stdbool.h>
#include <stddef.h>
#include <stdint.h>

#include "readiness.h"
#include "task_epochs.h"
#include "zangjulf.h"

#define MODEL_SENDINGS 4096
#define MODEL_BLOCKS 1024

/* A datagram of a frame that was sent. */
struct head {
    uint8_t command, number; /* of a register block its number in the slave's order */
    uint32_t address;
    uint16_t length, expected;
    uint16_t station, start; /* of a register block */
};

/* A sending: no arrival answers it once one has fitted it, or an edit was accepted. */
struct sending {
    uint64_t serial;
    bool is_open;
    uint64_t losses; /* of register writes how many slaves were lost before */
    size_t count;
    struct head heads[ZANGJULF_OUTCOMES];
};

/* The last write of a block since its slave was connected or last lost. It is under way as long as its frame can be answered. */
struct known {
    uint16_t station;
    uint8_t number, size, bytes[16];
    uint64_t serial;
    bool is_confirmed, is_under_way;
};

/* Of a datagram of a task the serial of its last sending, its data with their serial and whether they came in the present epoch, and
 * what was counted. */
struct history {
    bool was_sent, has_data, is_present;
    uint64_t sent, data;
    uint8_t bytes[ZANGJULF_DATA];
    struct zangjulf_counters counters;
};

struct model {
    struct sending sendings[MODEL_SENDINGS];
    struct history tasks[ZANGJULF_TASKS][ZANGJULF_DATAGRAMS];
    struct known known[MODEL_BLOCKS];
    size_t known_count;
    uint64_t losses, losses_at_write; /* how many slaves were lost, and how many before the last write */
    uint64_t first_serials[ZANGJULF_TASKS]; /* of each task's last sending the first serial, 0 before one */
    struct readiness readiness;
    struct task_epochs epochs;
};

/* A line was opened with a project's text; a group's text was declared. */
void model_opened(struct model *model, const struct zangjulf *line, const uint8_t *text, size_t size);
void model_declared(struct model *model, const uint8_t *text, size_t size);

/* An edit was accepted: after it the line has other datagrams and blocks, and slaves may have gone. Tasks that it changes have no data. */
void model_edited(struct model *model, const struct zangjulf *line);

/* A slave lost its registers: its blocks' last writes say nothing any more. A write that is sent then takes the place of all before. */
void model_lost(struct model *model, uint16_t station);

/* A declared slave was cleared: one of the line is lost too. A slave outside the line was unplugged. */
void model_cleared(struct model *model, const struct zangjulf *line, uint16_t station);
void model_unplugged(struct model *model, uint16_t station);

/* What holds a task up. */
void model_waits(const struct model *model, const struct zangjulf *line, uint8_t task, struct waiting *waiting);

/* Bit t is set if task t would wait once each slave that came with the last edit were cleared. */
uint8_t model_will_wait(const struct model *model, const struct zangjulf *line);

/* The frame that writes the first owed blocks, as many as it holds, with a serial; if `further`, the first ones that are not under way.
 * It is put into `frame`, which has room for any frame. Its bytes, and how many blocks it writes; 0 if there is none. */
size_t model_writes(const struct model *model, const struct zangjulf *line, uint64_t serial, bool further, uint8_t *frame, size_t *blocks);

/* Tasks were sent in frames from a serial on. */
void model_began(struct model *model, const uint8_t *tasks, size_t count, uint64_t first_serial);

/* A frame of tasks, or of register writes, was sent. */
void model_sent(struct model *model, const struct zangjulf *line, const uint8_t *frame);

/* Whether the arrival of a frame that can be read is as the model says: its kind, and these outcomes, as many as there was room for. */
bool model_arrived(struct model *model, const uint8_t *frame, const struct zangjulf_arrival *arrival, const struct zangjulf_outcome *outcomes,
                   size_t room);

/* Whether the epochs and the state of a read are right, and the task's datagrams have data as the read says, these bytes, of these
 * sendings. */
bool model_reads(const struct model *model, const struct zangjulf *line, uint8_t task, const struct zangjulf_image *image, const uint8_t *bytes,
                 const uint64_t *serials, size_t room);

/* Bit d is set if a task's datagram d has data that came in the present epoch. */
uint16_t model_present(const struct model *model, uint8_t task);

/* Whether the counters of a datagram are these. */
bool model_counts(const struct model *model, uint8_t task, uint8_t datagram, const struct zangjulf_counters *counters);

/* Whether each slave of the line adds to the counter of a datagram what its FMMU blocks say, and all of them its expected counter;
 * where the task has no such datagram, whether none is answered. */
bool model_shares(const struct zangjulf *line, uint8_t task, uint8_t number);

/* Whether these blocks are owed, in this order, and no other one. */
bool model_owes(const struct model *model, const struct zangjulf *line);

#endif
