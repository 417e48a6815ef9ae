#include "tool.h"

#include <stdio.h>
#include <stdlib.h>

#include "wire.h"

const struct wire_slave TOOL_SLAVE[TOOL_SLAVES] = {{1001, 0, 0, 0}, {1002, 0x1100, 0x1180, 6}, {1003, 0x1100, 0x1180, 6}, {1004, 0x1000, 0x1080, 1}, {2001, 0x1100, 0x1180, 1}};

#define MOST_MISSES 2 /* so many frames of register writes that bring nothing, and the tool is given up */

void tool_expect(uint8_t answer, const char *what) {
    if (!answer) return;
    printf("%s: %u %s: ", what, answer, zangjulf_name(answer));
    wire_fail(zangjulf_text(answer));
}

void tool_pass(struct tool *tool, const uint8_t *frame, size_t size, struct zangjulf_outcome *outcomes, struct zangjulf_arrival *arrival) {
    uint8_t returned[ZANGJULF_FRAME];
    size_t came = wire_pass(frame, size, returned);
    tool_expect(zangjulf_arrive(&tool->line, returned, came, outcomes, ZANGJULF_OUTCOMES, arrival), "a frame can't be read");
}

static uint32_t owed_blocks(const struct tool *tool) {
    uint32_t count;
    tool_expect(zangjulf_owed(&tool->line, &count), "what is owed");
    return count;
}

/* Whether the gripper took zeros to its FMMUs. Until it has, they may take outputs of any task. */
static bool is_switched_off(void) {
    uint8_t frame[ZANGJULF_FRAME], returned[ZANGJULF_FRAME];
    size_t size;
    tool_expect(zangjulf_fmmu_off(GRIPPER_STATION, GRIPPER_AREAS, frame, sizeof frame, &size), "the gripper's FMMUs");
    wire_pass(frame, size, returned);
    return returned[26 + 16 * GRIPPER_AREAS] == 1; /* the working counter */
}

static void leave_line(struct tool *tool) {
    struct zangjulf_cost cost;
    tool_expect(zangjulf_disconnect(&tool->line, GRIPPER, false, &cost), "the gripper leaves");
    if (owed_blocks(tool)) wire_fail("a tool that leaves owes register blocks of others");
    tool->is_there = false;
    tool->misses = 0;
}

/* The gripper goes, and stays on the wire with its FMMUs switched off. */
static void disconnect(struct tool *tool) {
    if (!is_switched_off()) wire_fail("the gripper isn't switched off");
    leave_line(tool);
    tool_expect(zangjulf_cleared(&tool->line, GRIPPER_STATION), "the gripper is cleared");
}

/* The gripper doesn't answer. It is unplugged, and leaves the line. */
static void give_up(struct tool *tool) {
    if (!tool->is_there) wire_fail("a slave takes no register blocks");
    wire_plug(GRIPPER_SLAVE, false, false);
    leave_line(tool);
    tool_expect(zangjulf_unplugged(&tool->line, GRIPPER_STATION), "the gripper is unplugged");
    tool->given_up++;
}

/* The gripper comes. One that doesn't take zeros to its FMMUs isn't connected. */
static void connect(struct tool *tool, bool keeps_contact) {
    struct zangjulf_cost cost;
    wire_plug(GRIPPER_SLAVE, true, true);
    if (!is_switched_off()) wire_fail("the gripper isn't switched off");
    tool_expect(zangjulf_connect(&tool->line, GRIPPER, false, &cost), "the gripper comes");
    tool_expect(zangjulf_cleared(&tool->line, GRIPPER_STATION), "the gripper is cleared");
    tool->is_there = true;
    if (!keeps_contact) wire_plug(GRIPPER_SLAVE, true, false);
}

void tool_change(struct tool *tool, unsigned long eighth) {
    long start = wire_now();
    if (tool->is_there) disconnect(tool);
    else if (eighth % 2 == 1) connect(tool, eighth % 8 != 7);
    long took = wire_now() - start;
    if (took > tool->longest_change) tool->longest_change = took;
}

size_t tool_send(struct tool *tool, const uint8_t *tasks, size_t count, uint8_t *frames, size_t room) {
    struct zangjulf_frame only;
    struct zangjulf_sent sent;
    uint8_t ready, sendable[ZANGJULF_TASKS];
    size_t ready_count = 0;
    tool_expect(zangjulf_ready(&tool->line, &ready), "the ready tasks");
    for (size_t i = 0; i < count; i++)
        if (ready >> tasks[i] & 1) sendable[ready_count++] = tasks[i];
    tool_expect(zangjulf_send(&tool->line, sendable, ready_count, frames, room, &only, 1, &sent), "a sending");
    if (sent.frames != 1) wire_fail("the tasks need more than one frame");
    return only.size;
}

void tool_write(struct tool *tool) {
    uint8_t frame[ZANGJULF_FRAME];
    struct zangjulf_outcome outcomes[ZANGJULF_OUTCOMES];
    struct zangjulf_arrival arrival;
    struct zangjulf_writes writes;
    uint32_t before = owed_blocks(tool);
    if (!before) return;
    tool_expect(zangjulf_next_writes(&tool->line, frame, sizeof frame, &writes), "register writes");
    tool->register_frames++;
    tool_pass(tool, frame, writes.size, outcomes, &arrival);
    uint32_t left = owed_blocks(tool);
    tool->misses = left < before ? 0 : tool->misses + 1;
    if (!left) tool->docked += tool->is_there;
    else if (tool->misses == MOST_MISSES) give_up(tool);
}

void tool_open(struct tool *tool, const char *project) {
    static uint8_t text[1 << 16];
    const struct zangjulf_options options = {sizeof options, 0};
    uint8_t task = 0;
    FILE *in = fopen(project, "rb");
    if (!in) wire_fail("there is no such project");
    size_t size = fread(text, 1, sizeof text, in);
    fclose(in);
    tool_expect(zangjulf_open(&tool->line, &options, text, size, &task), "the project isn't opened");
    wire_plug(GRIPPER_SLAVE, false, false);
    while (owed_blocks(tool)) tool_write(tool);
}
