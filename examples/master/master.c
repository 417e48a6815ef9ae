/* A master with one thread, on the wire of `wire.c`, for so many seconds at so many cycles a second. The line is the tool changer, whose
 * gripper comes and goes every second, in a task that it shares. Before it comes and before it leaves the line its FMMUs are switched
 * off: it stays on the wire, and takes no part. Each slave answers a frame with inputs that are the outputs of the frame before it. The
 * run fails if a task reads anything else, or if a wrong counter or a stale frame comes. If no namespace can be made it says so, and ends
 * with status 77. All frames, as they are sent and as they return, are left in a capture if one is named, which Wireshark reads.
 *
 *     master PROJECT SECONDS CYCLES_A_SECOND [CAPTURE] */
#include <stdio.h>
#include <stdlib.h>
#include <string.h>

#include "wire.h"
#include "zangjulf.h"

#define GRIPPER 100
#define GRIPPER_SLAVE 4
#define GRIPPER_STATION 2001
#define GRIPPER_AREAS 2 /* each has an FMMU */

/* Variables of one bit, each output with the input that answers it; the last two are the gripper's. */
static const uint32_t BITS[][2] = {{41, 51}, {42, 52}, {43, 53}, {101, 111}, {102, 112}};
#define PAIRS 5

/* The slaves in their order: the coupler, both axes, inputs and outputs of the machine, the gripper. */
static const struct wire_slave SLAVE[] = {{1001, 0, 0, 0}, {1002, 0x1100, 0x1180, 6}, {1003, 0x1100, 0x1180, 6}, {1004, 0x1000, 0x1080, 1}, {2001, 0x1100, 0x1180, 1}};

static struct zangjulf line;
static uint8_t frames[ZANGJULF_FRAMES], data[ZANGJULF_IMAGE], posted[14], posted_before[14];
static uint64_t bits[PAIRS], bits_before[PAIRS];
static bool is_known[PAIRS];
static unsigned long cycles, wrong, stale;
static long longest_edit, longest_cycle;

static void fail(const char *what) {
    printf("master: cycle %lu: %s\n", cycles, what);
    exit(1);
}

/* Ends the run unless a call is done. */
static void expect(uint8_t answer, const char *what) {
    if (!answer) return;
    printf("master: cycle %lu: %s: %u %s: %s\n", cycles, what, answer, zangjulf_name(answer), zangjulf_text(answer));
    exit(1);
}

/* Sends a frame and hands in what returns; what it answers. */
static uint8_t pass(const uint8_t *frame, size_t size) {
    uint8_t returned[ZANGJULF_FRAME];
    struct zangjulf_outcome outcomes[ZANGJULF_OUTCOMES];
    struct zangjulf_arrival arrival;
    size_t came = wire_pass(frame, size, returned);
    expect(zangjulf_arrive(&line, returned, came, outcomes, ZANGJULF_OUTCOMES, &arrival), "a frame can't be read");
    stale += arrival.kind == ZANGJULF_STALE;
    for (size_t i = 0; i < arrival.datagrams; i++) {
        wrong += outcomes[i].kind == ZANGJULF_WRONG_COUNT;
        if (outcomes[i].kind == ZANGJULF_BLOCK_MISSED) fail("a register block isn't taken");
    }
    return arrival.kind;
}

static void write_blocks(void) {
    struct zangjulf_writes writes;
    uint8_t answer;
    while (!(answer = zangjulf_next_writes(&line, frames, sizeof frames, &writes)))
        if (pass(frames, writes.size) != ZANGJULF_OF_BLOCKS) fail("register blocks aren't written");
    if (answer != ZANGJULF_NOTHING_OWED) expect(answer, "a register write");
}

/* Switches off the FMMUs of the gripper. While it stays on the wire, they would take outputs of others. */
static void switch_off_gripper(void) {
    uint8_t returned[ZANGJULF_FRAME];
    size_t size;
    expect(zangjulf_fmmu_off(GRIPPER_STATION, GRIPPER_AREAS, frames, sizeof frames, &size), "the gripper's FMMUs");
    wire_pass(frames, size, returned);
    if (returned[26 + 16 * GRIPPER_AREAS] != 1) fail("the gripper isn't switched off"); /* the working counter */
}

/* The gripper comes, or goes. */
static void change_tool(bool comes) {
    struct zangjulf_cost cost;
    wire_plug(GRIPPER_SLAVE, true, true);
    switch_off_gripper();
    long start = wire_now();
    uint8_t answer = comes ? zangjulf_connect(&line, GRIPPER, false, &cost) : zangjulf_disconnect(&line, GRIPPER, false, &cost);
    long took = wire_now() - start;
    expect(answer, "an edit");
    if (took > longest_edit) longest_edit = took;
    expect(zangjulf_cleared(&line, GRIPPER_STATION), "the gripper is cleared");
    write_blocks();
    is_known[3] = is_known[4] = false;
}

/* What the tasks post in a cycle. */
static void post(void) {
    struct zangjulf_image_sizes sizes;
    uint8_t outputs[16] = {0};
    uint32_t epoch;
    expect(zangjulf_epoch(&line, &epoch), "the epoch");
    expect(zangjulf_image_sizes(&line, 1, &sizes), "the bytes of task 1");
    for (size_t i = 0; i < sizeof posted; i++) posted[i] = (uint8_t)(cycles * 7 + i * 31);
    posted[7] = 0; /* a gap */
    for (int i = 0; i < PAIRS; i++) {
        bits[i] = (cycles >> i) % 2;
        uint8_t answer = zangjulf_put_value(&line, BITS[i][0], epoch, bits[i], outputs, sizeof outputs);
        if (answer != ZANGJULF_NOTHING) expect(answer, "an output"); /* the gripper's have no place while it is away */
    }
    expect(zangjulf_post(&line, 0, epoch, posted, sizeof posted), "task 0 posts");
    expect(zangjulf_post(&line, 1, epoch, outputs, sizes.outputs), "task 1 posts");
}

/* Reads a task into `data`, all of it of this cycle's sending; the epoch. */
static uint32_t read_task(uint8_t task) {
    struct zangjulf_image image;
    expect(zangjulf_read(&line, task, data, sizeof data, NULL, 0, &image), "a task reads");
    if (image.state != ZANGJULF_COMPLETE) fail("a task reads an older answer");
    return image.epoch;
}

/* Each task reads what its slaves had from the cycle before. */
static void check(void) {
    uint64_t bit = 0;
    read_task(0);
    if (cycles && memcmp(data + 14, posted_before, 12)) fail("an axis reads another value");
    uint32_t epoch = read_task(1);
    for (int i = 0; i < PAIRS; i++) {
        uint8_t answer = zangjulf_get_value(&line, BITS[i][1], epoch, data, sizeof data, &bit);
        if (answer != ZANGJULF_NOTHING) expect(answer, "an input");
        if (!answer && is_known[i] && bit != bits_before[i]) fail("a bit is another");
        is_known[i] = !answer;
    }
    memcpy(posted_before, posted, sizeof posted);
    memcpy(bits_before, bits, sizeof bits);
}

static void cycle(void) {
    const uint8_t tasks[] = {0, 1};
    struct zangjulf_frame table[2];
    struct zangjulf_sent sent;
    long start = wire_now();
    post();
    expect(zangjulf_send(&line, tasks, 2, frames, sizeof frames, table, 2, &sent), "a sending");
    for (size_t i = 0; i < sent.frames; i++)
        if (pass(frames + table[i].offset, table[i].size) != ZANGJULF_OF_TASKS) fail("a frame answers nothing");
    check();
    long took = wire_now() - start;
    if (took > longest_cycle) longest_cycle = took;
}

static void run(long seconds, long rate) {
    long start = wire_now();
    bool is_present = false;
    for (cycles = 0; cycles < (unsigned long)(seconds * rate); cycles++) {
        wire_wait(start + (long)cycles * (SECOND / rate));
        if (cycles && cycles % (unsigned long)rate == 0) change_tool(is_present = !is_present);
        cycle();
    }
}

int main(int count, char **words) {
    static uint8_t text[1 << 16];
    const struct zangjulf_options options = {sizeof options, 0};
    uint8_t task = 0;
    FILE *in = count == 4 || count == 5 ? fopen(words[1], "rb") : NULL;
    if (!in) return 2;
    size_t size = fread(text, 1, sizeof text, in);
    fclose(in);
    if (!wire_open(SLAVE, sizeof SLAVE / sizeof *SLAVE, count == 5 ? words[4] : NULL)) {
        printf("master: no network namespaces with a pair of devices can be made here\n");
        return 77;
    }
    expect(zangjulf_open(&line, &options, text, size, &task), "the project isn't opened");
    wire_plug(GRIPPER_SLAVE, false, false);
    write_blocks();
    run(atol(words[2]), atol(words[3]));
    wire_close();
    expect(zangjulf_close(&line), "the line isn't closed");
    printf("cycles %lu, wrong counters %lu, stale frames %lu, longest edit %ld us, longest cycle %ld us\n", cycles, wrong, stale, longest_edit / 1000, longest_cycle / 1000);
    return wrong || stale;
}
