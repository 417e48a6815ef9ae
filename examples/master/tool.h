/* A tool that comes and goes on the wire of `wire.c`, for the examples beside it: the gripper of examples/own_tasks.toml, which has a
 * task of its own. Its FMMUs are switched off before it joins the line and before it leaves it, and `zangjulf_cleared` says so: then its
 * own task alone waits for it. Its register blocks go out in one frame, beside the tasks of a cycle. If it loses contact before it has
 * them, it is given up after two frames that it doesn't take, and unplugged. */
#ifndef TOOL_H
#define TOOL_H
#include <stdbool.h>
#include <stddef.h>
#include <stdint.h>

#include "wire.h"
#include "zangjulf.h"

#define GRIPPER 100
#define GRIPPER_SLAVE 4
#define GRIPPER_STATION 2001
#define GRIPPER_AREAS 2 /* each has an FMMU */
#define GRIPPER_TASK 2

/* The line, whether the gripper is in it, how many frames of register writes in a row brought nothing, and what happened so far; the
 * longest change in nanoseconds. */
struct tool {
    struct zangjulf line;
    bool is_there;
    int misses;
    unsigned long docked, given_up, register_frames;
    long longest_change;
};

/* The slaves of the project in their order, the gripper last. */
#define TOOL_SLAVES 5
extern const struct wire_slave TOOL_SLAVE[TOOL_SLAVES];

/* Opens a project on the wire without the gripper, all register blocks written. */
void tool_open(struct tool *tool, const char *project);

/* Four times in eight eighths of a second the gripper comes, and it goes. The last time it loses contact once it is in the line. */
void tool_change(struct tool *tool, unsigned long eighth);

/* Sends those of the tasks that are ready; the bytes of their frames. */
size_t tool_send(struct tool *tool, const uint8_t *tasks, size_t count, uint8_t *frames, size_t room);

/* Writes the owed register blocks in one frame, if there are some. */
void tool_write(struct tool *tool);

/* Sends a frame and hands in what returns. `outcomes` has room for any frame's. */
void tool_pass(struct tool *tool, const uint8_t *frame, size_t size, struct zangjulf_outcome *outcomes, struct zangjulf_arrival *arrival);

/* Ends the run unless a call is done. */
void tool_expect(uint8_t answer, const char *what);
#endif
