/* A simulated line, written, sent and read, with edits and a slave that loses its registers: the part of edges.c that has slaves. */
#include <stdlib.h>
#include <string.h>

#include "edges.h"

#define SLAVES 4
static uint8_t memories[SLAVES][ZANGJULF_SLAVE_MEMORY];

static void pass(uint8_t *frame, size_t size) {
    for (int i = 0; i < SLAVES; i++) EXPECT(zangjulf_slave_process(memories[i], sizeof memories[i], frame, size) == ZANGJULF_DONE);
}

/* The four slaves of the mandatory group, their station addresses as if they were written. */
static void start(void) {
    for (int i = 0; i < SLAVES; i++) {
        EXPECT(zangjulf_slave_start(memories[i], sizeof memories[i] - 1, 0) == ZANGJULF_MISUSED);
        EXPECT(zangjulf_slave_start(memories[i], sizeof memories[i], (uint16_t)(3 * i)) == ZANGJULF_DONE);
        EXPECT(memories[i][0x12] == 3 * i && !memories[i][0x13] && !memories[i][0x10]);
        memories[i][0x10] = (uint8_t)(1001 + i);
        memories[i][0x11] = (uint8_t)((1001 + i) >> 8);
    }
}

static void write_all(struct zangjulf *line) {
    uint8_t *frame = slice(60);
    struct zangjulf_outcome outcome;
    struct zangjulf_write write;
    struct zangjulf_owed_block first;
    struct zangjulf_arrival arrival;
    unsigned number;
    while (!zangjulf_owed_block(line, 0, &first) && !(number = zangjulf_next_write(line, frame, 60, &write))) {
        EXPECT(write.block.station == first.station && write.block.start == first.start && write.block.size == first.size);
        pass(frame, write.size);
        EXPECT(zangjulf_arrive(line, frame, write.size, &outcome, 1, &arrival) == ZANGJULF_DONE && arrival.kind == ZANGJULF_OF_BLOCKS && arrival.datagrams == 1);
        EXPECT(outcome.kind == ZANGJULF_BLOCK_WRITTEN && outcome.station == first.station && outcome.start == first.start && outcome.length == first.size);
        EXPECT(zangjulf_arrive(line, frame, write.size, &outcome, 1, &arrival) == ZANGJULF_DONE && arrival.kind == ZANGJULF_STALE && !arrival.datagrams);
    }
    number = zangjulf_next_write(line, frame, 60, &write);
    EXPECT(number == ZANGJULF_NOTHING_OWED);
    free(frame);
}

/* All blocks of a slave that lost its registers go out in one frame: each is answered by its own counter, and those that no slave took
 * are sent again. */
static void write_at_once(struct zangjulf *line) {
    uint8_t *frame = slice(ZANGJULF_FRAME), *single = slice(60);
    struct zangjulf_outcome outcomes[4];
    struct zangjulf_writes writes = {7, 7};
    struct zangjulf_write write;
    struct zangjulf_arrival arrival;
    uint32_t owed = 7;
    EXPECT(zangjulf_next_writes(line, frame, ZANGJULF_FRAME, &writes) == ZANGJULF_NOTHING_OWED && writes.size == 7);
    EXPECT(zangjulf_slave_lost(line, 1002) == ZANGJULF_DONE);
    EXPECT(zangjulf_next_writes(line, frame, ZANGJULF_FRAME, &writes) == ZANGJULF_DONE && writes.blocks == 4 && writes.size == 112);
    pass(frame, writes.size);
    /* the second block was taken by none; the third one's data begin after three heads and two blocks: 26 + 20 + 28 */
    frame[26 + 20 + 16] = 0;
    EXPECT(zangjulf_arrive(line, frame, writes.size, outcomes, 4, &arrival) == ZANGJULF_DONE && arrival.kind == ZANGJULF_OF_BLOCKS && arrival.datagrams == 4);
    EXPECT(outcomes[0].kind == ZANGJULF_BLOCK_WRITTEN && outcomes[0].station == 1002 && outcomes[0].start == 0x0810 && outcomes[0].at == 26);
    EXPECT(outcomes[1].kind == ZANGJULF_BLOCK_MISSED && outcomes[1].expected == 1 && !outcomes[1].got && outcomes[1].start == 0x0600);
    EXPECT(outcomes[2].kind == ZANGJULF_BLOCK_WRITTEN && outcomes[2].at == 26 + 20 + 28 && outcomes[2].length == 8);
    EXPECT(zangjulf_owed(line, &owed) == ZANGJULF_DONE && owed == 1);
    EXPECT(zangjulf_arrive(line, frame, writes.size, outcomes, 4, &arrival) == ZANGJULF_DONE && arrival.kind == ZANGJULF_STALE);
    /* one block has the frame of a single write, and a later write of it takes its place */
    EXPECT(zangjulf_next_writes(line, frame, 60, &writes) == ZANGJULF_DONE && writes.blocks == 1 && writes.size == 60);
    EXPECT(zangjulf_next_write(line, single, 60, &write) == ZANGJULF_DONE && !memcmp(frame + 16, single + 16, 1) && !memcmp(frame + 18, single + 18, 42));
    pass(frame, 60), pass(single, 60);
    EXPECT(zangjulf_arrive(line, frame, 60, outcomes, 4, &arrival) == ZANGJULF_DONE && arrival.kind == ZANGJULF_STALE);
    EXPECT(zangjulf_arrive(line, single, 60, outcomes, 4, &arrival) == ZANGJULF_DONE && arrival.kind == ZANGJULF_OF_BLOCKS && outcomes[0].station == 1002);
    EXPECT(zangjulf_owed(line, &owed) == ZANGJULF_DONE && !owed);
    free(frame);
    free(single);
}

/* Two frames of a lost slave's four blocks are under way: one block and the three others. They come back in the other order, and each
 * counts for its own blocks; one that is sent again counts no more. */
static void write_further(struct zangjulf *line) {
    uint8_t *first = slice(60), *others = slice(92), *again = slice(112);
    struct zangjulf_outcome outcomes[4];
    struct zangjulf_writes writes = {7, 7};
    struct zangjulf_write write;
    struct zangjulf_arrival arrival;
    uint32_t owed = 7;
    EXPECT(zangjulf_further_writes(line, first, 60, &writes) == ZANGJULF_NOTHING_OWED && writes.size == 7);
    EXPECT(zangjulf_slave_lost(line, 1002) == ZANGJULF_DONE && zangjulf_next_write(line, first, 60, &write) == ZANGJULF_DONE);
    EXPECT(zangjulf_further_writes(line, others, 91, &writes) == ZANGJULF_ROOM && writes.size == 92 && writes.blocks == 7 && others[0] == 0xaa);
    EXPECT(zangjulf_further_writes(line, others, 92, &writes) == ZANGJULF_DONE && writes.size == 92 && writes.blocks == 3);
    EXPECT(zangjulf_further_writes(line, again, 112, &writes) == ZANGJULF_UNDER_WAY && writes.size == 92 && again[0] == 0xaa);
    pass(first, 60), pass(others, 92);
    EXPECT(zangjulf_arrive(line, others, 92, outcomes, 4, &arrival) == ZANGJULF_DONE && arrival.kind == ZANGJULF_OF_BLOCKS && arrival.datagrams == 3);
    EXPECT(zangjulf_owed(line, &owed) == ZANGJULF_DONE && owed == 1);
    EXPECT(zangjulf_next_write(line, again, 60, &write) == ZANGJULF_DONE);
    EXPECT(zangjulf_arrive(line, first, 60, outcomes, 4, &arrival) == ZANGJULF_DONE && arrival.kind == ZANGJULF_STALE);
    pass(again, 60);
    EXPECT(zangjulf_arrive(line, again, 60, outcomes, 4, &arrival) == ZANGJULF_DONE && outcomes[0].kind == ZANGJULF_BLOCK_WRITTEN);
    EXPECT(zangjulf_owed(line, &owed) == ZANGJULF_DONE && !owed);
    free(first);
    free(others);
    free(again);
}

/* Outputs reach the slaves, and inputs the tasks. */
static void exchange(struct zangjulf *line) {
    const uint8_t tasks[2] = {0, 1}, outputs[14] = {1, 2, 3, 4, 5, 6, 7, 8, 9, 10, 11, 12, 13, 14};
    uint8_t *frames = slice(80), *data = slice(26);
    struct zangjulf_sent sent = {0};
    struct zangjulf_frame table[2] = {{7, 7}, {7, 7}};
    struct zangjulf_outcome outcomes[2];
    struct zangjulf_arrival arrival;
    struct zangjulf_image image = {0};
    struct zangjulf_counters counters;
    uint64_t serials[16], value = 0;
    for (int i = 0; i < 6; i++) memories[1][0x1180 + i] = (uint8_t)(0x20 + i), memories[2][0x1180 + i] = (uint8_t)(0x30 + i);
    EXPECT(zangjulf_post(line, 0, 0, outputs, sizeof outputs) == ZANGJULF_DONE);
    /* datagrams of 26 and 2 bytes in one frame: 16 + 38 + 14 */
    EXPECT(zangjulf_send(line, tasks, 2, frames, 67, table, 2, &sent) == ZANGJULF_ROOM && sent.size == 68 && frames[0] == 0xaa && table[0].size == 7);
    EXPECT(zangjulf_send(line, tasks, 2, frames, 80, table, 2, &sent) == ZANGJULF_DONE && sent.frames == 1 && sent.size == 68 && sent.first_serial == 12);
    EXPECT(!table[0].offset && table[0].size == 68 && table[1].size == 7);
    EXPECT(zangjulf_read(line, 0, data, 26, serials, 16, &image) == ZANGJULF_DONE && image.state == ZANGJULF_NO_DATA && image.first_serial == 12);
    memset(data, 0xaa, 26);
    EXPECT(zangjulf_frame_size(frames) == 68 && frames[68] == 0xaa);
    pass(frames, sent.size);
    /* axis X has the first six output bytes, axis Y the others; its second byte is a gap, and nothing is sent of it */
    EXPECT(memories[1][0x1100] == 1 && memories[1][0x1105] == 6 && memories[2][0x1100] == 7 && memories[2][0x1107] == 14);
    EXPECT(!memories[2][0x1101]);
    EXPECT(zangjulf_is_mine(frames, sent.size));
    EXPECT(zangjulf_arrive(line, frames, sent.size, outcomes, 1, &arrival) == ZANGJULF_DONE && arrival.kind == ZANGJULF_OF_TASKS && arrival.datagrams == 2 && arrival.serial == 12);
    EXPECT(outcomes[0].kind == ZANGJULF_INPUTS && outcomes[0].task == 0 && outcomes[0].datagram == 0 && outcomes[0].at == 26 && outcomes[0].length == 26);
    EXPECT(zangjulf_counters(line, 0, 0, &counters) == ZANGJULF_DONE && counters.sent == 1 && counters.good == 1 && !counters.wrong && !counters.again);
    EXPECT(zangjulf_counters(line, 0, 16, &counters) == ZANGJULF_NOTHING && zangjulf_counters(line, 8, 0, &counters) == ZANGJULF_NOTHING);
    EXPECT(zangjulf_read(line, 0, data, 25, serials, 16, &image) == ZANGJULF_ROOM && data[0] == 0xaa);
    EXPECT(zangjulf_read(line, 0, data, 26, serials, 16, &image) == ZANGJULF_DONE && image.datagrams == 1 && image.size == 26 && image.has == 1 && serials[0] == 12);
    EXPECT(image.state == ZANGJULF_COMPLETE && image.first_serial == 12);
    EXPECT(zangjulf_get_value(line, 12, 0, data, 26, &value) == ZANGJULF_DONE && value == 0x25242322);
    EXPECT(zangjulf_get_value(line, 12, 1, data, 26, &value) == ZANGJULF_STALE_POST);
    EXPECT(!memcmp(data, outputs, 7) && !data[7] && !memcmp(data + 8, outputs + 8, 6) && data[14] == 0x20 && data[19] == 0x25 && data[20] == 0x30 && data[25] == 0x35);
    /* task 7 has no datagram: it is complete, and its sending has no frame */
    EXPECT(zangjulf_read(line, 7, data, 26, serials, 16, &image) == ZANGJULF_DONE && image.state == ZANGJULF_COMPLETE && !image.datagrams && !image.size);
    free(frames);
    free(data);
}

/* Axis X loses its registers while its frame and a register write to it are under way: the frame is answered, the write confirms nothing,
 * its four blocks are written again, and its task goes on in its epoch with what was posted before. */
static void lose(struct zangjulf *line) {
    const uint8_t tasks[1] = {0};
    uint8_t *frame = slice(60), *first = slice(60), *again = slice(60);
    struct zangjulf_sent sent = {0};
    struct zangjulf_write write;
    struct zangjulf_outcome outcome;
    struct zangjulf_arrival arrival;
    uint32_t epoch = 7, owed = 7;
    EXPECT(zangjulf_slave_lost(line, 9999) == ZANGJULF_UNKNOWN_STATION && zangjulf_slave_lost(line, 2001) == ZANGJULF_ABSENT);
    EXPECT(zangjulf_owed(line, &owed) == ZANGJULF_DONE && !owed);
    EXPECT(zangjulf_slave_lost(line, 1002) == ZANGJULF_DONE && zangjulf_owed(line, &owed) == ZANGJULF_DONE && owed == 4);
    write_all(line);
    /* a datagram of 26 bytes: 16 + 38, so 60 with the padding */
    EXPECT(zangjulf_send(line, tasks, 1, frame, 60, NULL, 0, &sent) == ZANGJULF_DONE && sent.size == 60);
    pass(frame, 60);
    EXPECT(zangjulf_slave_lost(line, 1002) == ZANGJULF_DONE);
    EXPECT(zangjulf_next_write(line, first, 60, &write) == ZANGJULF_DONE && write.block.station == 1002 && write.block.start == 0x0810);
    pass(first, 60);
    EXPECT(zangjulf_slave_lost(line, 1002) == ZANGJULF_DONE);
    EXPECT(zangjulf_arrive(line, first, 60, &outcome, 1, &arrival) == ZANGJULF_DONE && arrival.kind == ZANGJULF_STALE);
    EXPECT(zangjulf_owed(line, &owed) == ZANGJULF_DONE && owed == 4);
    EXPECT(zangjulf_arrive(line, frame, 60, &outcome, 1, &arrival) == ZANGJULF_DONE && outcome.kind == ZANGJULF_INPUTS);
    EXPECT(zangjulf_send(line, tasks, 1, again, 60, NULL, 0, &sent) == ZANGJULF_WAITS && sent.waits.task == 0 && sent.waits.blocks == 4);
    write_all(line);
    EXPECT(zangjulf_send(line, tasks, 1, again, 60, NULL, 0, &sent) == ZANGJULF_DONE && !memcmp(frame + 26, again + 26, 14));
    EXPECT(zangjulf_epoch(line, &epoch) == ZANGJULF_DONE && !epoch);
    free(frame);
    free(first);
    free(again);
}

/* A tool comes in task 1: asked first, then carried out. Task 1 will wait once it is cleared. Task 0 isn't changed: it reads its data of before, and
 * its posts of before are accepted. Task 1 has no data. */
static void edit(struct zangjulf *line) {
    struct zangjulf_cost would, cost;
    struct zangjulf_image image;
    uint64_t value = 7;
    uint32_t epoch = 7;
    uint64_t serials[16];
    uint8_t *data = slice(26), outputs[14] = {0};
    EXPECT(zangjulf_connect(line, 99, false, &cost) == ZANGJULF_UNKNOWN_ALIAS);
    EXPECT(zangjulf_disconnect(line, 0, false, &cost) == ZANGJULF_MANDATORY);
    EXPECT(zangjulf_disconnect(line, 100, false, &cost) == ZANGJULF_NOT_PRESENT);
    EXPECT(zangjulf_connect(line, 100, true, &would) == ZANGJULF_DONE && would.epoch == 1);
    EXPECT(zangjulf_epoch(line, &epoch) == ZANGJULF_DONE && !epoch);
    EXPECT(zangjulf_connect(line, 100, false, &cost) == ZANGJULF_DONE && cost.epoch == 1);
    EXPECT(cost.recut == would.recut && cost.moved == would.moved && cost.places == would.places && cost.waits == 2 && would.waits == 2);
    EXPECT(zangjulf_epoch(line, &epoch) == ZANGJULF_DONE && epoch == 1);
    EXPECT(zangjulf_read(line, 0, data, 26, serials, 16, &image) == ZANGJULF_DONE && image.epoch == 1 && !image.task_epoch && image.datagrams == 1);
    EXPECT(image.has == 1 && serials[0] > 12 && data[14] == 0x20 && data[25] == 0x35);
    EXPECT(zangjulf_read(line, 1, data, 26, serials, 16, &image) == ZANGJULF_DONE && image.epoch == 1 && image.task_epoch == 1 && image.datagrams == 1);
    EXPECT(!image.has && !serials[0] && !data[0] && !data[1]);
    EXPECT(zangjulf_post(line, 0, 0, outputs, 14) == ZANGJULF_DONE && zangjulf_post(line, 0, 1, outputs, 14) == ZANGJULF_DONE);
    EXPECT(zangjulf_post(line, 0, 2, outputs, 14) == ZANGJULF_STALE_POST && zangjulf_post(line, 1, 0, outputs, 2) == ZANGJULF_STALE_POST);
    /* values follow their task: 21 is an output of task 0, 101 one of the tool in task 1 */
    EXPECT(zangjulf_put_value(line, 21, 0, 1, outputs, 14) == ZANGJULF_DONE && zangjulf_put_value(line, 21, 2, 1, outputs, 14) == ZANGJULF_STALE_POST);
    EXPECT(zangjulf_put_value(line, 101, 0, 1, outputs, 14) == ZANGJULF_STALE_POST && zangjulf_put_value(line, 101, 1, 1, outputs, 14) == ZANGJULF_DONE);
    EXPECT(zangjulf_get_value(line, 111, 0, data, 26, &value) == ZANGJULF_STALE_POST && value == 7);
    EXPECT(zangjulf_get_value(line, 111, 1, data, 26, &value) == ZANGJULF_DONE && !value);
    EXPECT(zangjulf_put_value(line, 111, 0, 1, outputs, 14) == ZANGJULF_STALE_POST && zangjulf_put_value(line, 111, 1, 1, outputs, 14) == ZANGJULF_IS_INPUT);
    free(data);
}

/* A group is declared: asked first, then done; it is taken then, and comes when it is connected. A text of no group is refused.
 * */
static void declare(struct zangjulf *line) {
    static const char group[] = "[[group]]\nalias = 900\n[[group.slave]]\nstation = 9001\n";
    struct zangjulf_cost cost;
    uint32_t epoch = 7;
    EXPECT(zangjulf_declare(line, (const uint8_t *)"x", 1, false, &cost) == ZANGJULF_PROJECT_NOT_TOML);
    EXPECT(zangjulf_declare(line, (const uint8_t *)"", 0, false, &cost) == ZANGJULF_PROJECT_NOT_ONE_GROUP);
    EXPECT(zangjulf_declare(line, (const uint8_t *)group, sizeof group - 1, true, &cost) == ZANGJULF_DONE && cost.epoch == 2);
    EXPECT(zangjulf_epoch(line, &epoch) == ZANGJULF_DONE && epoch == 1);
    EXPECT(zangjulf_connect(line, 900, true, &cost) == ZANGJULF_UNKNOWN_ALIAS);
    EXPECT(zangjulf_declare(line, (const uint8_t *)group, sizeof group - 1, false, &cost) == ZANGJULF_DONE);
    EXPECT(cost.epoch == 2 && !cost.recut && !cost.moved && !cost.places);
    EXPECT(zangjulf_declare(line, (const uint8_t *)group, sizeof group - 1, false, &cost) == ZANGJULF_ALIAS_TAKEN);
    EXPECT(zangjulf_connect(line, 900, false, &cost) == ZANGJULF_DONE && cost.epoch == 3 && !cost.moved);
}

void line_of_slaves(void) {
    struct zangjulf line = {0};
    uint64_t serial = 7;
    uint32_t epoch = 7;
    uint8_t task;
    EXPECT(zangjulf_open(&line, &options, text, length, &task) == ZANGJULF_DONE);
    start();
    write_all(&line);
    exchange(&line);
    lose(&line);
    write_at_once(&line);
    write_further(&line);
    edit(&line);
    declare(&line);
    /* closed twice, and opened anew in its place: serials and epoch begin again */
    EXPECT(zangjulf_close(&line) == ZANGJULF_DONE && zangjulf_close(&line) == ZANGJULF_CLOSED);
    EXPECT(zangjulf_open(&line, &options, text, length, &task) == ZANGJULF_DONE);
    EXPECT(zangjulf_next_serial(&line, &serial) == ZANGJULF_DONE && !serial && zangjulf_epoch(&line, &epoch) == ZANGJULF_DONE && !epoch);
    EXPECT(zangjulf_close(&line) == ZANGJULF_DONE);
}
