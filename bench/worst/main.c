/* Draws states of the largest line, and makes each call of a cycle in them, for who counts the instructions of each call by
 * itself: callgrind sets its count to 0 where `begin_count` is called, and writes it down where `end_count` is.
 *
 * Words: STATES FILE. Each call is counted in so many states; the names of the calls are written to the file, a line for each
 * count, in the order of the counts. */
#include <stdio.h>
#include <stdlib.h>
#include <string.h>

#include "zangjulf.h"

#define SLAVES 2048
#define MANDATORY 1024
#define GROUPS 4
#define AREAS 8
#define WAITING 192

enum call { NOTHING, POST, SEND, ARRIVE_TASKS, ARRIVE_STALE, ARRIVE_FAULTY, READ, NEXT_WRITES, ARRIVE_WRITTEN, SHOW, TAKE_POSTS, SEAT_VIEW, SEAT_POST, CALLS };
static const char *const NAMES[CALLS] = {
    "nothing", "post", "send", "arrive, an answer", "arrive, stale", "arrive, a fault", "read", "next_writes",
    "arrive, blocks written", "show", "take_posts", "seat_view", "seat_post",
};

/* The counts begin and end here. */
__attribute__((noinline)) void begin_count(void) { __asm__ volatile("" ::: "memory"); }
__attribute__((noinline)) void end_count(void) { __asm__ volatile("" ::: "memory"); }

/* What `call` is, counted as one of a kind. */
#define COUNTED(kind, call) \
    do { \
        begin_count(); \
        call; \
        end_count(); \
        note(kind); \
    } while (0)

static FILE *notes;
static size_t counted[CALLS];

static void note(enum call kind) {
    fprintf(notes, "%s\n", NAMES[kind]);
    counted[kind]++;
}

_Noreturn static void give_up(const char *why) {
    fprintf(stderr, "worst: %s\n", why);
    exit(1);
}

static uint64_t state = 20261128;

/* A drawn number below another one. */
static uint32_t below(uint32_t count) {
    state = state * 6364136223846793005u + 1442695040888963407u;
    return (uint32_t)((state >> 33) % count);
}

/* A frame that is under way, or was. */
struct frame {
    size_t size;
    uint8_t bytes[ZANGJULF_FRAME];
};

static struct zangjulf line;
static struct zangjulf_seat seats[ZANGJULF_TASKS];
static uint16_t expected[ZANGJULF_TASKS][ZANGJULF_DATAGRAMS], outputs[ZANGJULF_TASKS];
static struct frame waiting[WAITING];
static size_t sent_frames;

/* The text of the line: all slaves, half of them in groups, with eight areas of 11 bytes, one for each task. */
static void write_slave(FILE *text, const char *table, unsigned at) {
    fprintf(text, "[[%s]]\nstation = %u\n", table, 1001 + at);
    for (unsigned area = 0; area < AREAS; area++) {
        unsigned variable = 2 * (AREAS * at + area) + 1;
        fprintf(text, "[[%s.area]]\nsm = %u\ndir = \"%s\"\nphys = %u\ntask = %u\nassigned = [1]\n", table, area,
                (at + area) % 2 ? "in" : "out", 0x1000 + 16 * area, area);
        fprintf(text, "pdo = [{ index = 1, entries = [[%u, 64], [%u, 24]] }]\n", variable, variable + 1);
    }
}

static char *line_text(size_t *size) {
    char *bytes = NULL;
    FILE *text = open_memstream(&bytes, size);
    if (!text) give_up("no memory for the text");
    for (unsigned at = 0; at < SLAVES; at++) {
        unsigned own = (SLAVES - MANDATORY) / GROUPS;
        if (at >= MANDATORY && (at - MANDATORY) % own == 0) fprintf(text, "[[group]]\nalias = %u\n", 1 + (at - MANDATORY) / own);
        write_slave(text, at < MANDATORY ? "slave" : "group.slave", at);
    }
    fclose(text);
    return bytes;
}

/* The line: each register block is taken. */
static void pass_writes(uint8_t *frame, size_t size) {
    size_t at = 16;
    while (at + 12 <= size) {
        size_t length = (frame[at + 6] | frame[at + 7] << 8) & 0x7ff;
        frame[at + 10 + length] = 1;
        if (!(frame[at + 7] & 0x80)) break;
        at += 12 + length;
    }
}

static void write_blocks(bool counts) {
    static uint8_t frame[ZANGJULF_FRAME];
    struct zangjulf_outcome outcomes[ZANGJULF_OUTCOMES];
    struct zangjulf_writes writes;
    struct zangjulf_arrival arrival;
    uint8_t answer;
    for (;;) {
        if (counts) COUNTED(NEXT_WRITES, answer = zangjulf_next_writes(&line, frame, sizeof frame, &writes));
        else answer = zangjulf_next_writes(&line, frame, sizeof frame, &writes);
        if (answer) return;
        pass_writes(frame, writes.size);
        if (counts && below(8) == 0) frame[26] ^= 1; /* a frame that comes back spoilt is sent again */
        if (counts) COUNTED(ARRIVE_WRITTEN, answer = zangjulf_arrive(&line, frame, writes.size, outcomes, ZANGJULF_OUTCOMES, &arrival));
        else answer = zangjulf_arrive(&line, frame, writes.size, outcomes, ZANGJULF_OUTCOMES, &arrival);
    }
}

static void look_at_line(void) {
    for (uint8_t task = 0; task < ZANGJULF_TASKS; task++) {
        struct zangjulf_datagram datagram;
        struct zangjulf_image_sizes sizes;
        if (zangjulf_image_sizes(&line, task, &sizes)) give_up("no sizes");
        outputs[task] = sizes.outputs;
        for (uint8_t number = 0; number < ZANGJULF_DATAGRAMS; number++) {
            if (zangjulf_datagram(&line, task, number, &datagram)) give_up("a task has less than 16 datagrams");
            expected[task][number] = datagram.expected;
        }
    }
}

static void open_line(void) {
    size_t size;
    uint8_t over_limit;
    const struct zangjulf_options options = {sizeof options, 0};
    struct zangjulf_cost cost;
    char *text = line_text(&size);
    if (zangjulf_open(&line, &options, (const uint8_t *)text, size, &over_limit)) give_up("the project isn't opened");
    free(text);
    for (uint16_t alias = 1; alias <= GROUPS; alias++)
        if (zangjulf_connect(&line, alias, false, &cost)) give_up("a group isn't connected");
    for (uint8_t task = 0; task < ZANGJULF_TASKS; task++)
        if (zangjulf_seat_open(&line, task, &seats[task])) give_up("a seat isn't opened");
    write_blocks(false);
    look_at_line();
}

static void draw_bytes(uint8_t *bytes, size_t size) {
    for (size_t i = 0; i < size; i++) bytes[i] = (uint8_t)below(256);
}

/* An epoch that is mostly the present one. */
static uint32_t drawn_epoch(void) {
    uint32_t epoch;
    if (zangjulf_epoch(&line, &epoch)) give_up("no epoch");
    return below(16) ? epoch : below(16);
}

static void post(void) {
    static uint8_t bytes[ZANGJULF_IMAGE];
    uint8_t task = (uint8_t)below(ZANGJULF_TASKS);
    uint32_t epoch = drawn_epoch();
    uint8_t answer;
    draw_bytes(bytes, 64);
    COUNTED(POST, answer = zangjulf_post(&line, task, epoch, bytes, outputs[task]));
    if (answer && answer != ZANGJULF_STALE_POST) give_up("a post");
}

/* Drawn tasks are sent in a drawn order. Their frames take the places of the oldest ones that are under way. */
static void send_tasks(void) {
    static uint8_t frames[ZANGJULF_FRAMES];
    uint8_t tasks[ZANGJULF_TASKS] = {0, 1, 2, 3, 4, 5, 6, 7};
    struct zangjulf_frame table[ZANGJULF_FRAME_COUNT];
    struct zangjulf_sent sent;
    uint8_t answer;
    size_t count = 1 + below(ZANGJULF_TASKS);
    for (size_t i = 0; i < count; i++) {
        size_t other = i + below((uint32_t)(ZANGJULF_TASKS - i));
        uint8_t task = tasks[i];
        tasks[i] = tasks[other], tasks[other] = task;
    }
    COUNTED(SEND, answer = zangjulf_send(&line, tasks, count, frames, sizeof frames, table, ZANGJULF_FRAME_COUNT, &sent));
    if (answer) return;
    for (uint32_t i = 0; i < sent.frames; i++) {
        struct frame *frame = &waiting[sent_frames++ % WAITING];
        frame->size = table[i].size;
        memcpy(frame->bytes, frames + table[i].offset, frame->size);
    }
}

/* Slaves give inputs, and count; some counters come back wrong. */
static void pass_tasks(struct frame *frame) {
    size_t at = 16;
    for (;;) {
        uint8_t *own = frame->bytes + at;
        size_t length = (own[6] | own[7] << 8) & 0x7ff;
        uint16_t counter = expected[own[5] - 1][(own[2] | own[3] << 8) / 2048 % ZANGJULF_DATAGRAMS];
        if (below(8) == 0) counter--;
        own[10 + length] = (uint8_t)counter, own[11 + length] = (uint8_t)(counter >> 8);
        draw_bytes(own + 10, length < 64 ? length : 64);
        if (!(own[7] & 0x80)) return;
        at += 12 + length;
    }
}

/* A frame that the line never sent, of datagrams with a byte of data each; half of them are spoilt, and a quarter cut off. */
static size_t foreign(uint8_t *frame) {
    size_t most = 16 + 13 * (1 + below(ZANGJULF_OUTCOMES)), size = most < 60 ? 60 : most;
    memset(frame, 0, ZANGJULF_FRAME);
    frame[6] = below(2) ? 2 : 6, frame[11] = 0, frame[12] = 0x88, frame[13] = 0xa4;
    frame[14] = (uint8_t)(most - 16), frame[15] = (uint8_t)(0x10 | (most - 16) >> 8);
    for (size_t at = 16; at < most; at += 13) frame[at] = 12, frame[at + 6] = 1, frame[at + 7] = at + 13 < most ? 0x80 : 0;
    if (below(2)) frame[below((uint32_t)size)] ^= (uint8_t)(1 + below(255));
    return below(4) ? size : below((uint32_t)size);
}

static void arrive(void) {
    static struct frame frame;
    static struct zangjulf_outcome outcomes[ZANGJULF_OUTCOMES];
    struct zangjulf_arrival arrival;
    uint8_t answer;
    if (sent_frames && below(2)) {
        size_t present = sent_frames < WAITING ? sent_frames : WAITING;
        frame = waiting[below((uint32_t)present)];
        pass_tasks(&frame);
    } else frame.size = foreign(frame.bytes);
    begin_count();
    answer = zangjulf_arrive(&line, frame.bytes, frame.size, outcomes, ZANGJULF_OUTCOMES, &arrival);
    end_count();
    note(answer ? ARRIVE_FAULTY : arrival.kind == ZANGJULF_STALE ? ARRIVE_STALE : ARRIVE_TASKS);
}

static void read_task(void) {
    static uint8_t image[ZANGJULF_IMAGE];
    uint64_t serials[ZANGJULF_DATAGRAMS];
    struct zangjulf_image found;
    uint8_t task = (uint8_t)below(ZANGJULF_TASKS), answer;
    COUNTED(READ, answer = zangjulf_read(&line, task, image, sizeof image, serials, ZANGJULF_DATAGRAMS, &found));
    if (answer) give_up("a read");
}

/* A task's thread views and posts. */
static void use_seat(void) {
    static uint8_t image[ZANGJULF_IMAGE], bytes[ZANGJULF_IMAGE];
    uint64_t serials[ZANGJULF_DATAGRAMS], number;
    struct zangjulf_view view;
    uint8_t task = (uint8_t)below(ZANGJULF_TASKS), answer;
    COUNTED(SEAT_VIEW, answer = zangjulf_seat_view(&seats[task], image, sizeof image, serials, ZANGJULF_DATAGRAMS, &view));
    if (answer) give_up("a view");
    COUNTED(SEAT_POST, answer = zangjulf_seat_post(&seats[task], view.epoch, bytes, view.outputs, &number));
    if (answer) give_up("a seat's post");
}

static void show_and_take(void) {
    struct zangjulf_taken taken;
    uint8_t answer = ZANGJULF_DONE;
    if (below(2)) COUNTED(SHOW, answer = zangjulf_show(&line));
    if (!answer && below(2)) COUNTED(TAKE_POSTS, answer = zangjulf_take_posts(&line, &taken));
    if (answer) give_up("a showing or a taking");
}

/* Slaves that were switched off owe their blocks. */
static void lose(void) {
    for (uint32_t left = 1 + below(5); left > 0; left--)
        if (zangjulf_slave_lost(&line, (uint16_t)(1001 + below(SLAVES)))) give_up("a slave that isn't there");
    if (below(2)) send_tasks(); /* refused, since tasks wait */
    write_blocks(true);
}

/* One event, drawn. */
static void one_event(void) {
    switch (below(12)) {
        case 0: post(); break;
        case 1: send_tasks(); break;
        case 2: read_task(); break;
        case 3: use_seat(); break;
        case 4: case 5: show_and_take(); break;
        case 6: COUNTED(NOTHING, (void)0); break;
        case 7: if (below(3) == 0) lose(); break;
        default: arrive();
    }
}

static bool is_done(size_t states) {
    for (int kind = 0; kind < CALLS; kind++)
        if (counted[kind] < states) return false;
    return true;
}

int main(int count, char **words) {
    size_t states = count == 3 ? strtoul(words[1], NULL, 10) : 0;
    notes = states ? fopen(words[2], "w") : NULL;
    if (!notes) give_up("STATES FILE");
    open_line();
    while (!is_done(states)) one_event();
    fclose(notes);
    return 0;
}
