#define _POSIX_C_SOURCE 200809L
#include "lines.h"

#include <stdio.h>
#include <stdlib.h>
#include <string.h>

const struct line LINE[LINES] = {
    {"one task, 100 bytes", 1, 1, 50, false},
    {"eight tasks in a frame", 8, 8, 50, false},
    {"64 slaves", 64, 1, 4, false},
    {"2,048 slaves, 12 frames", 2048, 1, 4, false},
    {"one task with a seat", 1, 1, 50, true},
};

_Noreturn void give_up(const char *why) {
    fprintf(stderr, "cycle: %s\n", why);
    exit(1);
}

static void write_area(FILE *text, unsigned number, unsigned task, unsigned bytes) {
    static unsigned variable;
    fprintf(text, "[[slave.area]]\nsm = %u\ndir = \"%s\"\nphys = %u\ntask = %u\nassigned = [1]\npdo = [{ index = 1, entries = [", number,
            number ? "in" : "out", 0x1000 + 0x400 * number, task);
    for (unsigned left = 8 * bytes, bits; left; left -= bits) {
        bits = left < 64 ? left : 64;
        fprintf(text, "[%u, %u],", ++variable, bits);
    }
    fprintf(text, "] }]\n");
}

static char *line_text(const struct line *line, size_t *size) {
    char *bytes = NULL;
    FILE *text = open_memstream(&bytes, size);
    if (!text) give_up("no memory for the text");
    for (unsigned at = 0; at < line->slaves; at++) {
        fprintf(text, "[[slave]]\nstation = %u\n", 1001 + at);
        for (unsigned area = 0; area < 2; area++) write_area(text, area, at % line->tasks, line->half);
    }
    fclose(text);
    return bytes;
}

/* Each register block is taken. */
static void write_blocks(struct zangjulf *line) {
    static uint8_t frame[ZANGJULF_FRAME];
    struct zangjulf_outcome outcomes[ZANGJULF_OUTCOMES];
    struct zangjulf_writes writes;
    struct zangjulf_arrival arrival;
    while (!zangjulf_next_writes(line, frame, sizeof frame, &writes)) {
        for (size_t at = 16, i = 0; i < writes.blocks; i++) {
            size_t length = (frame[at + 6] | frame[at + 7] << 8) & 0x7ff;
            frame[at + 10 + length] = 1;
            at += 12 + length;
        }
        if (zangjulf_arrive(line, frame, writes.size, outcomes, ZANGJULF_OUTCOMES, &arrival)) give_up("a block isn't written");
    }
}

static void copy_task(struct sides *sides, uint8_t number) {
    struct plain_task *task = &sides->plain.tasks[number];
    struct zangjulf_image_sizes sizes;
    struct zangjulf_datagram datagram;
    if (zangjulf_image_sizes(&sides->library, number, &sizes)) give_up("no sizes");
    task->outputs = sizes.outputs, task->size = (uint16_t)(sizes.outputs + sizes.inputs);
    while (!zangjulf_datagram(&sides->library, number, (uint8_t)task->count, &datagram)) {
        unsigned before = datagram.offset < sizes.outputs ? datagram.offset : sizes.outputs, left = sizes.outputs - before;
        task->datagrams[task->count] = (struct plain_datagram){
            .address = datagram.address, .length = datagram.length, .expected = datagram.expected, .offset = datagram.offset,
            .outputs = (uint16_t)(left < datagram.length ? left : datagram.length), .task = number, .number = (uint8_t)task->count,
        };
        if (++task->count == DATAGRAMS) break;
    }
    sides->plain.ready |= (uint8_t)(1u << number);
    sides->tasks[number] = number;
}

void open_sides(struct sides *sides, const struct line *line) {
    const struct zangjulf_options options = {sizeof options, 0};
    size_t size;
    uint8_t over_limit;
    char *text = line_text(line, &size);
    memset(sides, 0, sizeof *sides);
    sides->line = line;
    if (zangjulf_open(&sides->library, &options, (const uint8_t *)text, size, &over_limit)) give_up("the project isn't opened");
    free(text);
    write_blocks(&sides->library);
    for (uint8_t task = 0; task < line->tasks; task++) copy_task(sides, task);
    if (!line->has_seat) return;
    if (zangjulf_seat_open(&sides->library, 0, &sides->seat)) give_up("no seat");
    plain_seat_open(&sides->plain, 0, &sides->plain_seat);
}

void pass(const struct sides *sides, uint8_t *frame) {
    size_t at = 16, end = 16 + ((frame[14] | frame[15] << 8) & 0x7ff);
    while (at < end) {
        size_t length = (frame[at + 6] | frame[at + 7] << 8) & 0x7ff;
        const struct plain_datagram *datagram = &sides->plain.tasks[frame[at + 5] - 1].datagrams[frame[at + 3] >> 3];
        memset(frame + at + 10 + datagram->outputs, frame[at + 10] + 1, length - datagram->outputs);
        frame[at + 10 + length] = (uint8_t)datagram->expected, frame[at + 11 + length] = (uint8_t)(datagram->expected >> 8);
        at += 12 + length;
    }
}
