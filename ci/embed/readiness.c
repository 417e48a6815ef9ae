#include "readiness.h"

#include <stdlib.h>
#include <string.h>

uint8_t named_by(const uint8_t *bytes, size_t size) {
    bool is_task = size == 16 && bytes[12] == 1 && bytes[3] >= 1 && bytes[3] <= ZANGJULF_TASKS;
    return is_task ? (uint8_t)(1u << (bytes[3] - 1)) : 0;
}

static bool is_fmmu(uint8_t number) { return number % 2 == 1; }

/* A register; one that nothing was said of is unknown, and has no contents. */
static struct held *held_of(struct readiness *readiness, uint16_t station, uint8_t number) {
    static struct held lost;
    for (size_t i = 0; i < readiness->held_count; i++)
        if (readiness->held[i].station == station && readiness->held[i].number == number) return &readiness->held[i];
    if (readiness->held_count == READINESS_REGISTERS) return &lost;
    struct held *held = &readiness->held[readiness->held_count++];
    *held = (struct held){.station = station, .number = number, .is_unknown = true};
    return held;
}

static struct declared *declared_of(struct readiness *readiness, uint16_t station) {
    for (size_t i = 0; i < readiness->declared_count; i++)
        if (readiness->declared[i].station == station) return &readiness->declared[i];
    return NULL;
}

static void declare(struct readiness *readiness, uint16_t station) {
    if (readiness->declared_count == READINESS_SLAVES || declared_of(readiness, station)) return;
    readiness->declared[readiness->declared_count++] = (struct declared){.station = station};
}

void readiness_declared(struct readiness *readiness, const uint8_t *text, size_t size) {
    static const char key[] = "station = ";
    char number[16];
    for (size_t at = 0; at + sizeof key <= size; at++) {
        if (memcmp(text + at, key, sizeof key - 1)) continue;
        size_t left = size - at - (sizeof key - 1), count = left < sizeof number - 1 ? left : sizeof number - 1;
        memcpy(number, text + at + sizeof key - 1, count);
        number[count] = 0;
        declare(readiness, (uint16_t)strtoul(number, NULL, 0));
    }
}

void readiness_opened(struct readiness *readiness, const struct zangjulf *line, const uint8_t *text, size_t size) {
    memset(readiness, 0, sizeof *readiness);
    readiness->is_ordered = true;
    readiness_declared(readiness, text, size);
    readiness_edited(readiness, line);
}

/* A slave is in the line now. If it came, its registers are unknown. */
static void present(struct readiness *readiness, const struct zangjulf *line, uint16_t station) {
    struct zangjulf_block block;
    uint8_t bytes[16];
    struct declared *slave = declared_of(readiness, station);
    if (!slave) { /* its text was spelt in a way that isn't read here */
        readiness->is_ordered = false;
        declare(readiness, station);
        slave = declared_of(readiness, station);
    }
    for (uint8_t number = 1; slave && !slave->is_in_line && !zangjulf_block(line, station, number, bytes, sizeof bytes, &block); number += 2)
        held_of(readiness, station, number)->is_unknown = true;
    if (slave) slave->has_come = !slave->is_in_line, slave->is_in_line = true, slave->is_unplugged = false;
}

void readiness_edited(struct readiness *readiness, const struct zangjulf *line) {
    uint16_t station;
    uint32_t position;
    for (uint32_t i = 0; !zangjulf_station(line, i, &station); i++) present(readiness, line, station);
    for (size_t i = 0; i < readiness->declared_count; i++)
        if (zangjulf_position(line, readiness->declared[i].station, &position)) readiness->declared[i].is_in_line = readiness->declared[i].has_come = false;
}

void readiness_wrote(struct readiness *readiness, uint16_t station, uint8_t number, const uint8_t *bytes, size_t size) {
    if (is_fmmu(number)) held_of(readiness, station, number)->names |= named_by(bytes, size);
}

void readiness_answered(struct readiness *readiness, uint16_t station, uint8_t number, const uint8_t *bytes, size_t size) {
    if (!is_fmmu(number)) return;
    struct held *held = held_of(readiness, station, number);
    held->names = named_by(bytes, size);
    held->is_unknown = false;
}

void readiness_cleared(struct readiness *readiness, uint16_t station) {
    /* a slave that was never in the line has no register here yet: a slave has 8 areas at most */
    for (uint8_t number = 1; number < 16; number += 2) {
        struct held *held = held_of(readiness, station, number);
        held->names = 0;
        held->is_unknown = false;
    }
}

void readiness_unplugged(struct readiness *readiness, uint16_t station) {
    struct declared *slave = declared_of(readiness, station);
    if (slave) slave->is_unplugged = true;
}

/* The tasks that a block of the line concerns if it is owed: the one of its area, and each that its register may map. */
static uint8_t concerned_by(const struct readiness *readiness, const struct zangjulf *line, uint16_t station, uint8_t number) {
    struct zangjulf_block block;
    uint8_t bytes[16], own = 0;
    if (!zangjulf_block(line, station, number | 1, bytes, sizeof bytes, &block)) own = named_by(bytes, block.size);
    if (!is_fmmu(number)) return own;
    const struct held *held = held_of((struct readiness *)readiness, station, number);
    return held->is_unknown ? 0xff : own | held->names;
}

static void add_holder(struct waiting *waiting, uint16_t station) {
    if (waiting->holder_count && waiting->holders[waiting->holder_count - 1] == station) return;
    if (waiting->holder_count < READINESS_SLAVES) waiting->holders[waiting->holder_count++] = station;
}

void readiness_of(const struct readiness *readiness, const struct zangjulf *line, uint8_t task, owed_test is_owed, const void *context, struct waiting *waiting) {
    struct zangjulf_block block;
    uint8_t bytes[16];
    uint16_t station;
    memset(waiting, 0, sizeof *waiting);
    for (uint32_t position = 0; !zangjulf_station(line, position, &station); position++)
        for (uint8_t number = 0; !zangjulf_block(line, station, number, bytes, sizeof bytes, &block); number++) {
            if (!is_owed(context, station, number, &block, bytes) || !(concerned_by(readiness, line, station, number) >> task & 1)) continue;
            waiting->blocks++;
            add_holder(waiting, station);
        }
    waiting->holders_in_line = waiting->holder_count;
    for (size_t i = 0; i < readiness->declared_count; i++) {
        const struct declared *slave = &readiness->declared[i];
        if (slave->is_in_line || slave->is_unplugged) continue;
        for (size_t k = 0; k < readiness->held_count; k++) {
            const struct held *held = &readiness->held[k];
            if (held->station != slave->station || !(held->names >> task & 1)) continue;
            waiting->outside++;
            add_holder(waiting, slave->station);
        }
    }
}
