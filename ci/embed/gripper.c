/* Axes that keep their cycles, data and posts while a tool comes, does not answer, and goes, on simulated slaves. The axes are in task 0,
 * the gripper is in task 2, and so are the outputs of the screwdriver that comes after it. The run ends with status 1 at the first answer or byte that
 * is another one.
 *
 *     gripper PROJECT
 *
 * PROJECT is examples/own_tasks.toml. */
#include <stdio.h>
#include <stdlib.h>
#include <string.h>

#include "zangjulf.h"

#define EXPECT(fact) ((fact) ? (void)0 : fail(__LINE__, #fact))
#define AXES 0
#define TOOLS 2
#define SENSOR_TASK 3 /* of the screwdriver's inputs */
#define GRIPPER 100
#define SCREWDRIVER 101
#define SILENT_CYCLES 1000

enum { COUPLER, AXIS_X, AXIS_Y, MACHINE, GRIPPER_SLAVE, SCREWDRIVER_SLAVE, SENSOR, SLAVES };
static const uint16_t STATION[SLAVES] = {1001, 1002, 1003, 1004, 2001, 2101, 2102};

static struct zangjulf line;
static uint8_t memory[SLAVES][ZANGJULF_SLAVE_MEMORY];
static bool answers[SLAVES] = {true, true, true, true};
static uint8_t frame[ZANGJULF_FRAME];
static struct zangjulf_outcome outcomes[ZANGJULF_OUTCOMES];
static struct zangjulf_arrival arrival;

static void fail(int at, const char *fact) {
    printf("gripper.c:%d: not so: %s\n", at, fact);
    exit(1);
}

static void pass(size_t size) {
    for (int i = 0; i < SLAVES; i++)
        if (answers[i]) EXPECT(zangjulf_slave_process(memory[i], sizeof memory[i], frame, size) == ZANGJULF_DONE);
}

/* Each byte of a task's outputs is this one. What the axes post is made for the epoch of the opening. */
static void post(uint8_t task, uint8_t byte) {
    uint8_t outputs[ZANGJULF_DATA];
    struct zangjulf_image_sizes sizes;
    uint32_t epoch = 0;
    EXPECT(task == AXES || zangjulf_epoch(&line, &epoch) == ZANGJULF_DONE);
    EXPECT(zangjulf_image_sizes(&line, task, &sizes) == ZANGJULF_DONE);
    memset(outputs, byte, sizes.outputs);
    EXPECT(zangjulf_post(&line, task, epoch, outputs, sizes.outputs) == ZANGJULF_DONE);
}

/* A task is sent, and comes back good. */
static void exchange(uint8_t task) {
    struct zangjulf_sent sent;
    EXPECT(zangjulf_send(&line, &task, 1, frame, sizeof frame, NULL, 0, &sent) == ZANGJULF_DONE && sent.frames == 1);
    pass(sent.size);
    EXPECT(zangjulf_arrive(&line, frame, sent.size, outcomes, ZANGJULF_OUTCOMES, &arrival) == ZANGJULF_DONE && arrival.kind == ZANGJULF_OF_TASKS);
    EXPECT(arrival.datagrams == 1 && outcomes[0].kind == ZANGJULF_INPUTS && outcomes[0].task == task);
}

/* A frame of the owed blocks is passed: whether all of them are written. */
static bool write_blocks(void) {
    struct zangjulf_writes writes;
    uint32_t owed;
    EXPECT(zangjulf_next_writes(&line, frame, sizeof frame, &writes) == ZANGJULF_DONE);
    pass(writes.size);
    EXPECT(zangjulf_arrive(&line, frame, writes.size, outcomes, ZANGJULF_OUTCOMES, &arrival) == ZANGJULF_DONE && arrival.kind == ZANGJULF_OF_BLOCKS);
    EXPECT(zangjulf_owed(&line, &owed) == ZANGJULF_DONE);
    return !owed;
}

/* Whether a slave took the zeros to its FMMUs. */
static bool is_switched_off(int slave, uint8_t areas) {
    size_t size;
    EXPECT(zangjulf_fmmu_off(STATION[slave], areas, frame, sizeof frame, &size) == ZANGJULF_DONE);
    pass(size);
    return frame[26 + 16 * areas] == 1;
}

/* After an edit the axes read their data of before: no edit changed their task. */
static void goes_on(uint32_t epoch) {
    static uint8_t data[ZANGJULF_IMAGE];
    struct zangjulf_image image;
    EXPECT(zangjulf_read(&line, AXES, data, sizeof data, NULL, 0, &image) == ZANGJULF_DONE);
    EXPECT(image.epoch == epoch && !image.task_epoch && image.has == 1 && image.state == ZANGJULF_COMPLETE);
}

/* An edit, and the tasks that will wait once each slave that comes is cleared, as bits. */
static void connect(uint16_t alias, uint8_t waits) {
    struct zangjulf_cost cost;
    EXPECT(zangjulf_connect(&line, alias, false, &cost) == ZANGJULF_DONE && cost.waits == waits);
    goes_on(cost.epoch);
}

static void disconnect(uint16_t alias, uint8_t waits) {
    struct zangjulf_cost cost;
    EXPECT(zangjulf_disconnect(&line, alias, false, &cost) == ZANGJULF_DONE && cost.waits == waits);
    goes_on(cost.epoch);
}

/* Whether a task waits for just these counts, and this slave alone holds it up. */
static void waits(uint8_t task, uint32_t blocks, uint32_t outside, int slave) {
    struct zangjulf_sent sent;
    uint16_t station = 0;
    uint8_t ready;
    EXPECT(zangjulf_ready(&line, &ready) == ZANGJULF_DONE && !(ready >> task & 1));
    EXPECT(zangjulf_send(&line, &task, 1, frame, sizeof frame, NULL, 0, &sent) == ZANGJULF_WAITS);
    EXPECT(sent.waits.task == task && sent.waits.blocks == blocks && sent.waits.outside == outside);
    EXPECT(zangjulf_held_by(&line, task, 0, &station) == ZANGJULF_DONE && station == STATION[slave]);
    EXPECT(zangjulf_held_by(&line, task, 1, &station) == ZANGJULF_NOTHING);
}

static uint8_t ready_tasks(void) {
    uint8_t ready;
    EXPECT(zangjulf_ready(&line, &ready) == ZANGJULF_DONE);
    return ready;
}

static void open_line(const char *name) {
    static uint8_t text[1 << 16];
    const struct zangjulf_options options = {sizeof options, 0};
    uint8_t task;
    FILE *in = fopen(name, "rb");
    if (!in) exit(2);
    size_t size = fread(text, 1, sizeof text, in);
    fclose(in);
    EXPECT(zangjulf_open(&line, &options, text, size, &task) == ZANGJULF_DONE);
    for (int i = 0; i < SLAVES; i++) {
        EXPECT(zangjulf_slave_start(memory[i], sizeof memory[i], 0) == ZANGJULF_DONE);
        memcpy(&memory[i][0x10], &STATION[i], 2);
    }
    EXPECT(ready_tasks() == 0);
    EXPECT(write_blocks() && ready_tasks() == 0xff);
    post(AXES, 0x11);
    exchange(AXES);
}

/* The gripper comes with an FMMU that another master left in it, which takes the axes' outputs. It is cleared, and task 0 is sent and
 * answered in the cycle that writes the gripper's blocks. */
static void comes(void) {
    static const uint8_t left[16] = {0, 0, 0, 1, 1, 0, 0, 7, 0, 0x11, 0, 2, 1};
    answers[GRIPPER_SLAVE] = true;
    memcpy(&memory[GRIPPER_SLAVE][0x610], left, sizeof left);
    EXPECT(is_switched_off(GRIPPER_SLAVE, 2));
    connect(GRIPPER, 1 << TOOLS);
    waits(AXES, 2, 0, GRIPPER_SLAVE); /* anything may be in its two FMMUs */
    EXPECT(zangjulf_cleared(&line, STATION[GRIPPER_SLAVE]) == ZANGJULF_DONE);
    EXPECT(ready_tasks() == 0xfb);
    waits(TOOLS, 4, 0, GRIPPER_SLAVE);
    post(AXES, 0x22);
    exchange(AXES);
    EXPECT(memory[AXIS_X][0x1100] == 0x22 && !memory[GRIPPER_SLAVE][0x1100]);
    EXPECT(write_blocks() && ready_tasks() == 0xff);
    post(TOOLS, 0x01);
    exchange(TOOLS);
    EXPECT(memory[GRIPPER_SLAVE][0x1100] == 0x01);
}

/* It goes switched off, comes again, and does not answer its blocks for 1,000 cycles: task 0 has 1,000 good answers meanwhile. */
static void is_silent(void) {
    struct zangjulf_counters before, after;
    EXPECT(is_switched_off(GRIPPER_SLAVE, 2));
    disconnect(GRIPPER, 1 << TOOLS); /* until it is cleared */
    connect(GRIPPER, 1 << TOOLS);
    EXPECT(zangjulf_cleared(&line, STATION[GRIPPER_SLAVE]) == ZANGJULF_DONE);
    answers[GRIPPER_SLAVE] = false;
    EXPECT(zangjulf_counters(&line, AXES, 0, &before) == ZANGJULF_DONE);
    for (int cycle = 0; cycle < SILENT_CYCLES; cycle++) {
        post(AXES, (uint8_t)cycle);
        exchange(AXES);
        EXPECT(!write_blocks() && ready_tasks() == 0xfb);
        waits(TOOLS, 4, 0, GRIPPER_SLAVE);
    }
    EXPECT(zangjulf_counters(&line, AXES, 0, &after) == ZANGJULF_DONE && after.good == before.good + SILENT_CYCLES);
    answers[GRIPPER_SLAVE] = true;
    EXPECT(write_blocks() && ready_tasks() == 0xff);
    post(TOOLS, 0x02);
    exchange(TOOLS);
}

/* It is disconnected and stays on the wire. Task 0 goes on; the screwdriver's outputs come to task 2, which waits for the gripper. */
static void stays_plugged(void) {
    struct zangjulf_cost cost;
    disconnect(GRIPPER, 1 << TOOLS);
    EXPECT(ready_tasks() == 0xfb);
    exchange(AXES);
    answers[SCREWDRIVER_SLAVE] = answers[SENSOR] = true;
    connect(SCREWDRIVER, 1 << TOOLS | 1 << SENSOR_TASK);
    EXPECT(zangjulf_move_area(&line, STATION[SCREWDRIVER_SLAVE], 0, TOOLS, false, &cost) == ZANGJULF_DONE);
    EXPECT(zangjulf_cleared(&line, STATION[SCREWDRIVER_SLAVE]) == ZANGJULF_DONE && zangjulf_cleared(&line, STATION[SENSOR]) == ZANGJULF_DONE);
    exchange(AXES);
    EXPECT(write_blocks());
    exchange(AXES);
    waits(TOOLS, 0, 2, GRIPPER_SLAVE); /* its two FMMUs */
    EXPECT(memory[GRIPPER_SLAVE][0x1100] == 0x02);
}

/* The gripper is switched off and cleared: task 2 is sent, the screwdriver has its outputs, and the gripper keeps its own. */
static void is_cleared(void) {
    EXPECT(is_switched_off(GRIPPER_SLAVE, 2));
    EXPECT(zangjulf_cleared(&line, STATION[GRIPPER_SLAVE]) == ZANGJULF_DONE);
    EXPECT(ready_tasks() == 0xff);
    post(TOOLS, 0x03);
    exchange(TOOLS);
    EXPECT(memory[SCREWDRIVER_SLAVE][0x1100] == 0x03 && memory[GRIPPER_SLAVE][0x1100] == 0x02);
}

/* Once more, but it is unplugged: before that its task waits, and its outputs stay. */
static void is_unplugged(void) {
    disconnect(SCREWDRIVER, 1 << TOOLS | 1 << SENSOR_TASK);
    EXPECT(is_switched_off(SCREWDRIVER_SLAVE, 2) && is_switched_off(SENSOR, 1));
    EXPECT(zangjulf_cleared(&line, STATION[SCREWDRIVER_SLAVE]) == ZANGJULF_DONE && zangjulf_cleared(&line, STATION[SENSOR]) == ZANGJULF_DONE);
    connect(GRIPPER, 1 << TOOLS);
    EXPECT(zangjulf_unplugged(&line, STATION[GRIPPER_SLAVE]) == ZANGJULF_ALREADY_PRESENT);
    EXPECT(write_blocks());
    disconnect(GRIPPER, 1 << TOOLS);
    connect(SCREWDRIVER, 1 << TOOLS | 1 << SENSOR_TASK);
    EXPECT(write_blocks());
    waits(TOOLS, 0, 2, GRIPPER_SLAVE);
    EXPECT(memory[SCREWDRIVER_SLAVE][0x1100] == 0x03 && memory[GRIPPER_SLAVE][0x1100] == 0x02);
    answers[GRIPPER_SLAVE] = false;
    EXPECT(zangjulf_unplugged(&line, STATION[GRIPPER_SLAVE]) == ZANGJULF_DONE && ready_tasks() == 0xff);
    post(TOOLS, 0x05);
    exchange(TOOLS);
    EXPECT(memory[SCREWDRIVER_SLAVE][0x1100] == 0x05 && memory[GRIPPER_SLAVE][0x1100] == 0x02);
}

int main(int count, char **words) {
    if (count != 2) return 2;
    open_line(words[1]);
    comes();
    is_silent();
    stays_plugged();
    is_cleared();
    is_unplugged();
    EXPECT(zangjulf_close(&line) == ZANGJULF_DONE);
    printf("gripper: the axes kept their cycles\n");
    return 0;
}
