#include "task_epochs.h"

#include <stdlib.h>
#include <string.h>

#include "draws.h"
#include "ignore.h"
#include "readiness.h"

/* A number is taken into a figure. Figures of different numbers are different, but for one pair in 2^64. */
static void take(uint64_t *figure, uint64_t number) {
    *figure = (*figure ^ number) * 0x9e3779b97f4a7c15ULL;
    *figure ^= *figure >> 32;
}

/* How many outputs and inputs a task has, and its datagrams, whose addresses are those of their numbers. */
static void take_datagrams(uint64_t *figure, const struct zangjulf *line, uint8_t task) {
    struct zangjulf_datagram datagram;
    struct zangjulf_image_sizes sizes = {0, 0};
    ignore(zangjulf_image_sizes(line, task, &sizes));
    take(figure, sizes.outputs), take(figure, sizes.inputs);
    for (uint8_t number = 0; !zangjulf_datagram(line, task, number, &datagram); number++)
        take(figure, datagram.address), take(figure, datagram.length), take(figure, datagram.expected), take(figure, datagram.offset);
}

/* A variable's place, into the figure of its task. */
static void take_place(uint64_t *figures, const struct zangjulf *line, uint32_t variable) {
    struct zangjulf_place place;
    if (zangjulf_place(line, variable, &place)) return;
    uint64_t *figure = &figures[place.task];
    take(figure, variable), take(figure, place.datagram), take(figure, place.bit), take(figure, place.bits), take(figure, place.is_input);
}

static void take_block(uint64_t *figure, const struct zangjulf_block *block, const uint8_t *bytes) {
    take(figure, block->start);
    for (size_t i = 0; i < block->size; i++) take(figure, bytes[i]);
}

/* The two register blocks of each area of a slave, into the figure of the area's task. */
static void take_areas(uint64_t *figures, const struct zangjulf *line, uint16_t station) {
    struct zangjulf_block manager, fmmu;
    uint8_t managed[16], mapped[16];
    for (uint8_t number = 0; !zangjulf_block(line, station, number, managed, sizeof managed, &manager); number += 2) {
        if (zangjulf_block(line, station, number + 1, mapped, sizeof mapped, &fmmu)) return;
        uint8_t named = named_by(mapped, fmmu.size), task = 0;
        while (task < ZANGJULF_TASKS && !(named >> task & 1)) task++;
        if (task == ZANGJULF_TASKS) continue;
        take(&figures[task], station), take(&figures[task], number);
        take_block(&figures[task], &manager, managed), take_block(&figures[task], &fmmu, mapped);
    }
}

static void take_figures(const struct task_epochs *epochs, const struct zangjulf *line, uint64_t *figures) {
    uint16_t station;
    memset(figures, 0, ZANGJULF_TASKS * sizeof *figures);
    for (uint8_t task = 0; task < ZANGJULF_TASKS; task++) take_datagrams(&figures[task], line, task);
    for (size_t i = 0; i < epochs->variable_count; i++) take_place(figures, line, epochs->variables[i]);
    for (uint32_t position = 0; !zangjulf_station(line, position, &station); position++) take_areas(figures, line, station);
}

static void know(struct task_epochs *epochs, uint32_t variable) {
    for (size_t i = 0; i < epochs->variable_count; i++)
        if (epochs->variables[i] == variable) return;
    if (epochs->variable_count < EPOCHS_VARIABLES) epochs->variables[epochs->variable_count++] = variable;
}

/* The number that a text begins with; its digits may have underscores between them. */
static uint32_t number_in(const uint8_t *text, size_t size) {
    char digits[16];
    size_t count = 0;
    for (size_t i = 0; i < size && count < sizeof digits - 1 && text[i] && strchr("_xXabcdefABCDEF0123456789", text[i]); i++)
        if (text[i] != '_') digits[count++] = (char)text[i];
    digits[count] = 0;
    return (uint32_t)strtoul(digits, NULL, 0);
}

/* A variable is the first item of an array. So are other numbers, but no place is answered for them. */
void epochs_declared(struct task_epochs *epochs, const uint8_t *text, size_t size) {
    for (size_t at = 0; at < size; at++) {
        if (text[at] != '[') continue;
        size_t first = at + 1;
        while (first < size && text[first] && strchr(" \t\r\n", text[first])) first++;
        if (first < size && text[first] >= '0' && text[first] <= '9') know(epochs, number_in(text + first, size - first));
    }
}

void epochs_opened(struct task_epochs *epochs, const struct zangjulf *line, const uint8_t *text, size_t size) {
    memset(epochs, 0, sizeof *epochs);
    epochs_declared(epochs, text, size);
    take_figures(epochs, line, epochs->figures);
}

uint8_t epochs_edited(struct task_epochs *epochs, const struct zangjulf *line) {
    uint64_t figures[ZANGJULF_TASKS];
    uint8_t changed = 0;
    take_figures(epochs, line, figures);
    epochs->epoch++;
    for (uint8_t task = 0; task < ZANGJULF_TASKS; task++) {
        if (figures[task] == epochs->figures[task]) continue;
        changed |= (uint8_t)(1u << task);
        epochs->tasks[task] = epochs->epoch;
    }
    memcpy(epochs->figures, figures, sizeof figures);
    return changed;
}

bool epochs_fit(const struct task_epochs *epochs, uint8_t task, uint32_t epoch) {
    return epoch >= epochs->tasks[task] && epoch <= epochs->epoch;
}

unsigned epochs_post(const struct task_epochs *epochs, uint8_t task, uint32_t epoch, size_t size, size_t outputs) {
    if (task >= ZANGJULF_TASKS) return ZANGJULF_NO_SUCH_TASK;
    if (!epochs_fit(epochs, task, epoch)) return ZANGJULF_STALE_POST;
    return size == outputs ? ZANGJULF_DONE : ZANGJULF_POST_LENGTH;
}

uint32_t some_epoch(const struct task_epochs *epochs, uint8_t task) {
    if (below(2)) return epochs->epoch;
    if (!below(8)) return (uint32_t)draw();
    uint32_t about = task < ZANGJULF_TASKS && below(2) ? epochs->tasks[task] : epochs->epoch;
    return about + (uint32_t)below(3) - 1;
}
