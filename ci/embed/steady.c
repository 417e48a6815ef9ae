/* A cycle takes no memory: 10,000 cycles of one task and of eight, each with posts, a sending, the arrival of what was sent, a
 * read and look-ups, the same by seats, and a slave that is cleared and written anew, are counted once three cycles have run. It ends with status 1 where one of them took or
 * grew memory, or isn't answered as it should be. */
#include <stdio.h>
#include <stdlib.h>
#include <string.h>

#include "growths.h"
#include "zangjulf.h"

#define CYCLES 10000
#define FIRST 3

static uint8_t frames[ZANGJULF_FRAMES];

static void expect(unsigned number, unsigned wanted, const char *call) {
    if (number == wanted) return;
    printf("steady: %s is answered %u, %s\n", call, number, zangjulf_name((uint8_t)number));
    exit(1);
}

/* A project in which each task has an output and an input of 32 bits. */
static size_t write_project(char *text, size_t room) {
    size_t size = 0;
    for (unsigned task = 0; task < ZANGJULF_TASKS; task++)
        size += (size_t)snprintf(text + size, room - size,
                                 "[[slave]]\nstation = %u\n"
                                 "[[slave.area]]\nsm = 0\ndir = \"out\"\nphys = 0x1000\ntask = %u\nassigned = [1]\n"
                                 "pdo = [{ index = 1, entries = [[%u, 32]] }]\n"
                                 "[[slave.area]]\nsm = 1\ndir = \"in\"\nphys = 0x1100\ntask = %u\nassigned = [1]\n"
                                 "pdo = [{ index = 1, entries = [[%u, 32]] }]\n",
                                 1001 + task, task, 1 + 2 * task, task, 2 + 2 * task);
    return size;
}

static void program(struct zangjulf *line) {
    uint8_t frame[ZANGJULF_FRAME];
    struct zangjulf_write write;
    struct zangjulf_outcome outcome;
    struct zangjulf_arrival arrival;
    while (!zangjulf_next_write(line, frame, sizeof frame, &write)) {
        frame[26 + frame[22]] = 1;
        expect(zangjulf_arrive(line, frame, write.size, &outcome, 1, &arrival), ZANGJULF_DONE, "arrive");
        expect(outcome.kind, ZANGJULF_BLOCK_WRITTEN, "a register write");
    }
}

/* Sets the working counter of each datagram of a frame to what is expected. */
static void answer(const struct zangjulf *line, uint8_t *frame, size_t size) {
    struct zangjulf_datagram datagram;
    for (size_t at = 16; at + 12 <= size;) {
        uint32_t address = frame[at + 2] | frame[at + 3] << 8 | frame[at + 4] << 16 | (uint32_t)frame[at + 5] << 24;
        size_t length = (frame[at + 6] | frame[at + 7] << 8) & 0x7ff;
        if (zangjulf_datagram(line, (uint8_t)((address >> 24) - 1), address >> 11 & 15, &datagram)) return;
        memset(frame + at + 10 + 4, 7, length - 4);
        frame[at + 10 + length] = (uint8_t)datagram.expected;
        if (!(frame[at + 7] & 0x80)) return;
        at += 12 + length;
    }
}

static void cycle(struct zangjulf *line, const uint8_t *tasks, size_t count, uint32_t value) {
    struct zangjulf_outcome outcomes[ZANGJULF_OUTCOMES];
    struct zangjulf_arrival arrival;
    struct zangjulf_sent sent;
    struct zangjulf_frame table[ZANGJULF_TASKS];
    struct zangjulf_image read_image;
    uint64_t serials[ZANGJULF_DATAGRAMS], read;
    uint8_t image[ZANGJULF_IMAGE], outputs[4] = {0};
    for (size_t i = 0; i < count; i++) {
        expect(zangjulf_put_value(line, 1 + 2u * tasks[i], 0, value, outputs, sizeof outputs), ZANGJULF_DONE, "put_value");
        expect(zangjulf_post(line, tasks[i], 0, outputs, sizeof outputs), ZANGJULF_DONE, "post");
    }
    expect(zangjulf_send(line, tasks, count, frames, sizeof frames, table, ZANGJULF_TASKS, &sent), ZANGJULF_DONE, "send");
    for (uint32_t k = 0; k < sent.frames; k++) {
        uint8_t *frame = frames + table[k].offset;
        answer(line, frame, table[k].size);
        expect(zangjulf_arrive(line, frame, table[k].size, outcomes, ZANGJULF_OUTCOMES, &arrival), ZANGJULF_DONE, "arrive");
        expect(arrival.kind, ZANGJULF_OF_TASKS, "an arrival");
        for (size_t i = 0; i < arrival.datagrams; i++) expect(outcomes[i].kind, ZANGJULF_INPUTS, "an outcome");
    }
    for (size_t i = 0; i < count; i++) {
        expect(zangjulf_read(line, tasks[i], image, sizeof image, serials, ZANGJULF_DATAGRAMS, &read_image), ZANGJULF_DONE, "read");
        expect(read_image.state, ZANGJULF_COMPLETE, "a state");
        expect(zangjulf_get_value(line, 2 + 2u * tasks[i], read_image.epoch, image, read_image.size, &read), ZANGJULF_DONE, "get_value");
        expect(read == 0x07070707, 1, "a value");
    }
}

/* Each task's seat views what was shown, and posts its outputs with another value; the owner takes all. */
static void cycle_of_seats(struct zangjulf *line, struct zangjulf_seat *seats, size_t count, uint32_t value) {
    struct zangjulf_view view;
    struct zangjulf_taken posts;
    uint64_t serials[ZANGJULF_DATAGRAMS], number;
    uint8_t image[ZANGJULF_IMAGE], outputs[4];
    expect(zangjulf_show(line), ZANGJULF_DONE, "show");
    for (size_t i = 0; i < count; i++) {
        expect(zangjulf_seat_view(&seats[i], image, sizeof image, serials, ZANGJULF_DATAGRAMS, &view), ZANGJULF_DONE, "seat_view");
        expect(view.has == 1 && image[4] == 7, 1, "a view");
        expect(zangjulf_seat_outputs(&seats[i], outputs, sizeof outputs), ZANGJULF_DONE, "seat_outputs");
        memcpy(outputs, &value, sizeof outputs);
        expect(zangjulf_seat_post(&seats[i], view.epoch, outputs, view.outputs, &number), ZANGJULF_DONE, "seat_post");
    }
    expect(zangjulf_take_posts(line, &posts), ZANGJULF_DONE, "take_posts");
    expect(posts.accepted == (1u << count) - 1 && !posts.refused, 1, "posts");
}

/* A seat that only looks views too. */
static void look_once(struct zangjulf_seat *look) {
    struct zangjulf_view view;
    uint64_t serials[ZANGJULF_DATAGRAMS];
    uint8_t image[ZANGJULF_IMAGE];
    expect(zangjulf_seat_view(look, image, sizeof image, serials, ZANGJULF_DATAGRAMS, &view), ZANGJULF_DONE, "seat_view");
    expect(view.has == 1 && view.line == ZANGJULF_LINE_OPEN, 1, "a look");
    const uint8_t *lent;
    expect(zangjulf_seat_view_in_place(look, &lent, serials, ZANGJULF_DATAGRAMS, &view), ZANGJULF_DONE, "seat_view_in_place");
    expect(!memcmp(lent, image, view.size), 1, "a look in place");
}

/* The slave of task 0 is cleared: its task waits, and another one is sent. Then its blocks are written. */
static void cycle_of_a_slave(struct zangjulf *line) {
    static const uint8_t other = 1, own = 0;
    struct zangjulf_sent sent;
    uint16_t station;
    uint8_t ready;
    expect(zangjulf_cleared(line, 1001), ZANGJULF_DONE, "cleared");
    expect(zangjulf_unplugged(line, 1001), ZANGJULF_ALREADY_PRESENT, "unplugged");
    expect(zangjulf_ready(line, &ready), ZANGJULF_DONE, "ready");
    expect(ready, 0xfe, "ready tasks");
    expect(zangjulf_held_by(line, 0, 0, &station), ZANGJULF_DONE, "held_by");
    expect(station, 1001, "a slave that holds a task up");
    expect(zangjulf_send(line, &own, 1, frames, sizeof frames, NULL, 0, &sent), ZANGJULF_WAITS, "send");
    expect(zangjulf_send(line, &other, 1, frames, sizeof frames, NULL, 0, &sent), ZANGJULF_DONE, "send");
    program(line);
    expect(zangjulf_ready(line, &ready), ZANGJULF_DONE, "ready");
    expect(ready, 0xff, "ready tasks");
}

static void whole_cycle(struct zangjulf *line, struct zangjulf_seat *seats, struct zangjulf_seat *look, size_t count, uint32_t value) {
    static const uint8_t tasks[ZANGJULF_TASKS] = {0, 1, 2, 3, 4, 5, 6, 7};
    cycle(line, tasks, count, value);
    cycle_of_seats(line, seats, count, value);
    look_once(look);
    cycle_of_a_slave(line);
}

int main(void) {
    const struct zangjulf_options options = {sizeof options, 1};
    struct zangjulf_seat seats[ZANGJULF_TASKS] = {{0}}, look = {0};
    char text[8192];
    uint8_t over_limit;
    for (size_t count = 1; count <= ZANGJULF_TASKS; count += ZANGJULF_TASKS - 1) {
        struct zangjulf line = {0};
        expect(zangjulf_open(&line, &options, (const uint8_t *)text, write_project(text, sizeof text), &over_limit), ZANGJULF_DONE, "open");
        program(&line);
        for (uint8_t i = 0; i < count; i++) expect(zangjulf_seat_open(&line, i, &seats[i]), ZANGJULF_DONE, "seat_open");
        expect(zangjulf_look_open(&line, 0, 0, &look), ZANGJULF_DONE, "look_open");
        for (uint32_t i = 0; i < FIRST; i++) whole_cycle(&line, seats, &look, count, i);
        long before = taken;
        for (uint32_t i = 0; i < CYCLES; i++) whole_cycle(&line, seats, &look, count, i);
        printf("steady: %d cycles of %zu tasks took or grew memory %ld times\n", CYCLES, count, taken - before);
        if (taken != before) return 1;
        expect(zangjulf_close(&line), ZANGJULF_DONE, "close");
        for (size_t i = 0; i < count; i++) expect(zangjulf_seat_close(&seats[i]), ZANGJULF_DONE, "seat_close");
        expect(zangjulf_seat_close(&look), ZANGJULF_DONE, "seat_close");
    }
    return live != 0;
}
