/* A cycle over a line that changes while it runs, to copy from. Frames are lost; the gripper comes, closes, and leaves the line with its
 * FMMUs switched off, while it stays on the wire; another time it loses contact once it is in the line, and is given up. The gripper has
 * a task of its own, which alone waits for it: axis X is sent to a target in each cycle. Each answer is looked at, and each position.
 *
 *     cycle PROJECT
 *
 * PROJECT is examples/own_tasks.toml. The network is simulated: `network` is what a master of one's own has in its place, and `main`
 * would wait for the next millisecond in each turn. */
#include <stdio.h>
#include <stdlib.h>
#include <string.h>

#include "zangjulf.h"

enum { MOTION, MACHINE, TOOL, TASKS }; /* of the axes, of the machine's inputs and outputs, of the gripper */
enum { TARGET_X = 2, POSITION_X = 12, CLOSE = 101, CLOSED = 111 }; /* variables; `tools/names --c` prints such lines */
#define GRIPPER 100        /* the tool's alias */
#define GRIPPER_POSITION 4 /* it is the last slave on the wire */
#define GRIPPER_AREAS 2    /* each has an FMMU */
#define MOST_MISSES 3      /* so many frames of register writes that bring nothing, and the tool is given up */

static struct zangjulf line;
static bool has_gripper;
static unsigned cycles, lost, misses, answered, closed, given_up;

/* Goes on if a call is done. The program doesn't know how to go on after another answer. */
static void must(const char *call, uint8_t answer) {
    if (answer == ZANGJULF_DONE) return;
    printf("cycle %u: %s: %s: %s\n", cycles, call, zangjulf_name(answer), zangjulf_text(answer));
    zangjulf_free(&line);
    exit(1);
}

/* --- the simulated network ------------------------------------------------------------------------------------------------- */

/* What a slave does between two frames: it moves so many bytes of its outputs to its inputs. An axis is then where it was sent,
 * and the gripper is closed if it was to close. */
#define SLAVES 5
static const struct {
    uint16_t station, outputs, inputs, bytes;
} SLAVE[SLAVES] = {
    {1001, 0, 0, 0}, {1002, 0x1102, 0x1182, 4}, {1003, 0x1104, 0x1182, 4}, {1004, 0, 0, 0}, {2001, 0x1100, 0x1180, 1},
};
static uint8_t memory[SLAVES][ZANGJULF_SLAVE_MEMORY];
static int answering = SLAVES - 1; /* the gripper is on the wire if this is SLAVES */

/* A frame goes through the slaves and comes back in its place, with inputs as they were before it. False if it is lost, as every
 * tenth frame is. */
static bool network(uint8_t *frame, size_t size) {
    static unsigned sent;
    if (++sent % 10 == 0) return lost++, false;
    for (int i = 0; i < answering; i++) {
        must("zangjulf_slave_process", zangjulf_slave_process(memory[i], sizeof memory[i], frame, size));
        memcpy(&memory[i][SLAVE[i].inputs], &memory[i][SLAVE[i].outputs], SLAVE[i].bytes);
    }
    return true;
}

/* --- the master ------------------------------------------------------------------------------------------------------------ */

/* Gives the slave at a position its station address. It takes no register block before. */
static void name_slave(uint16_t position) {
    uint8_t frame[ZANGJULF_SHORTEST_FRAME];
    size_t size;
    do must("zangjulf_station_write", zangjulf_station_write(position, SLAVE[position].station, frame, sizeof frame, &size));
    while (!network(frame, size) || frame[28] != 1); /* the working counter */
}

/* Sets the gripper's FMMUs to zeros. A slave that comes may have others in them, and one that stays on the wire keeps them. */
static void switch_off_gripper(void) {
    uint8_t frame[ZANGJULF_FRAME];
    size_t size;
    do must("zangjulf_fmmu_off", zangjulf_fmmu_off(SLAVE[GRIPPER_POSITION].station, GRIPPER_AREAS, frame, sizeof frame, &size));
    while (!network(frame, size) || frame[26 + 16 * GRIPPER_AREAS] != 1); /* the working counter */
}

/* The gripper joins the line. Once it is cleared, its own task waits for its register blocks, and no other one. */
static void gripper_comes(void) {
    struct zangjulf_cost cost;
    name_slave(GRIPPER_POSITION);
    switch_off_gripper();
    must("zangjulf_connect", zangjulf_connect(&line, GRIPPER, false, &cost));
    must("zangjulf_cleared", zangjulf_cleared(&line, SLAVE[GRIPPER_POSITION].station));
    if (cost.waits != 1 << TOOL) must("other tasks than the gripper's wait", ZANGJULF_WAITS);
    has_gripper = true;
}

/* The gripper leaves the line: it stays on the wire, or is off it. */
static void gripper_goes(bool stays) {
    struct zangjulf_cost cost;
    uint16_t station = SLAVE[GRIPPER_POSITION].station;
    if (stays) switch_off_gripper();
    must("zangjulf_disconnect", zangjulf_disconnect(&line, GRIPPER, false, &cost));
    if (stays) must("zangjulf_cleared", zangjulf_cleared(&line, station));
    else must("zangjulf_unplugged", zangjulf_unplugged(&line, station));
    has_gripper = false;
}

/* A frame that came in is handed in; how many of its datagrams came back as they should. One that can't be read is somebody else's, one
 * that is stale comes late, and a task whose datagram has a wrong counter goes on with what it read before. */
static unsigned hand_in(const uint8_t *frame, size_t size) {
    struct zangjulf_outcome outcomes[ZANGJULF_OUTCOMES];
    struct zangjulf_arrival arrival;
    unsigned good = 0;
    uint8_t answer = zangjulf_arrive(&line, frame, size, outcomes, ZANGJULF_OUTCOMES, &arrival);
    if (answer >= ZANGJULF_SHORT && answer <= ZANGJULF_INDEX_MISMATCH) return 0;
    must("zangjulf_arrive", answer);
    for (int i = 0; i < arrival.datagrams; i++) good += outcomes[i].kind == ZANGJULF_INPUTS || outcomes[i].kind == ZANGJULF_BLOCK_WRITTEN;
    return good;
}

/* Writes owed register blocks in one frame; those that are not taken are sent again in the next cycle. A gripper that takes none is
 * given up. The machine does not run without any other slave. */
static void write_blocks(void) {
    uint8_t frame[ZANGJULF_FRAME];
    struct zangjulf_writes writes;
    uint8_t answer = zangjulf_next_writes(&line, frame, sizeof frame, &writes);
    if (answer == ZANGJULF_NOTHING_OWED) return;
    must("zangjulf_next_writes", answer);
    if (network(frame, writes.size) && hand_in(frame, writes.size)) misses = 0;
    else if (++misses == MOST_MISSES && has_gripper) gripper_goes(false), given_up++, misses = 0;
}

/* A task posts a value for one of its outputs, and zeros for all others. */
static void post(uint8_t task, uint32_t variable, uint64_t value) {
    uint8_t outputs[ZANGJULF_IMAGE] = {0};
    struct zangjulf_image_sizes sizes;
    uint32_t epoch;
    must("zangjulf_epoch", zangjulf_epoch(&line, &epoch));
    must("zangjulf_image_sizes", zangjulf_image_sizes(&line, task, &sizes));
    must("zangjulf_put_value", zangjulf_put_value(&line, variable, epoch, value, outputs, sizes.outputs));
    must("zangjulf_post", zangjulf_post(&line, task, epoch, outputs, sizes.outputs));
}

/* The value of an input, if all data of its task are of the last sending. */
static bool read_value(uint8_t task, uint32_t variable, uint64_t *value) {
    static uint8_t data[ZANGJULF_IMAGE];
    struct zangjulf_image image;
    must("zangjulf_read", zangjulf_read(&line, task, data, sizeof data, NULL, 0, &image));
    if (image.state != ZANGJULF_COMPLETE) return false;
    must("zangjulf_get_value", zangjulf_get_value(&line, variable, image.epoch, data, image.size, value));
    return true;
}

/* One cycle: the tasks that are ready are sent, what comes back is handed in, and owed register blocks are written. */
static void cycle(void) {
    static uint8_t frames[ZANGJULF_FRAMES];
    struct zangjulf_frame table[ZANGJULF_FRAME_COUNT];
    struct zangjulf_sent sent;
    uint8_t ready, tasks[TASKS], count = 0;
    must("zangjulf_ready", zangjulf_ready(&line, &ready));
    for (uint8_t task = 0; task < TASKS; task++)
        if (ready >> task & 1) tasks[count++] = task;
    must("zangjulf_send", zangjulf_send(&line, tasks, count, frames, sizeof frames, table, ZANGJULF_FRAME_COUNT, &sent));
    for (uint32_t i = 0; i < sent.frames; i++)
        if (network(frames + table[i].offset, table[i].size)) hand_in(frames + table[i].offset, table[i].size);
    write_blocks();
}

/* --- the machine ----------------------------------------------------------------------------------------------------------- */

/* A turn: axis X goes on from where it was sent last, and the gripper closes. What is read is what the frame before sent. */
static void turn(void) {
    static uint64_t reached;
    uint64_t target = reached + 10, position, is_closed;
    post(MOTION, TARGET_X, target);
    if (has_gripper) post(TOOL, CLOSE, 1);
    cycle();
    if (!read_value(MOTION, POSITION_X, &position)) return;
    if (position != reached) must("the position of axis X", ZANGJULF_MISUSED);
    reached = target, answered++;
    if (has_gripper && read_value(TOOL, CLOSED, &is_closed)) closed += is_closed != 0;
}

int main(int count, char **words) {
    static uint8_t text[1 << 16];
    struct zangjulf_options options = {sizeof options, 0};
    uint8_t task;
    FILE *in = count == 2 ? fopen(words[1], "rb") : NULL;
    if (!in || zangjulf_abi() != ZANGJULF_ABI) return 2;
    must("zangjulf_open", zangjulf_open(&line, &options, text, fread(text, 1, sizeof text, in), &task));
    fclose(in);
    for (int i = 0; i < SLAVES; i++) must("zangjulf_slave_start", zangjulf_slave_start(memory[i], sizeof memory[i], 0));
    for (uint16_t position = 0; position < GRIPPER_POSITION; position++) name_slave(position);
    for (uint32_t owed = 1; owed; must("zangjulf_owed", zangjulf_owed(&line, &owed))) write_blocks();
    for (cycles = 0; cycles < 1000; cycles++) {
        if (cycles == 200 || cycles == 600) answering = SLAVES, gripper_comes();
        if (cycles == 400) gripper_goes(true);
        if (cycles == 600) answering = SLAVES - 1; /* it loses contact */
        turn();
    }
    must("zangjulf_close", zangjulf_close(&line));
    printf("cycles %u, lost frames %u, cycles with an answer %u, gripper closed %u, given up %u\n", cycles, lost, answered, closed, given_up);
    return 0;
}
