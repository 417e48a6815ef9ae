/* Plays a script of the program hotline through the C library: project text, a line `%%` and commands on standard input, what
 * each answers on standard output (docs/use/PROGRAM.md). Scripts are well formed: a word that is none ends it with status 2. */
#define _POSIX_C_SOURCE 200809L
#include <stdio.h>
#include <stdlib.h>
#include <string.h>

#include "ignore.h"
#include "words.h"

#define MOST_INPUT 4194304

static struct zangjulf line;
static uint8_t out[ZANGJULF_FRAMES];
static uint64_t first; /* the serial from which sendings are of the present epoch */

static unsigned long number_in(const char *word) {
    char *end;
    unsigned long number = strtoul(word, &end, 0);
    if (!*word || *end) exit(2);
    return number;
}

static void write_block(void) {
    uint64_t serial = 0;
    struct zangjulf_write write;
    ignore(zangjulf_next_serial(&line, &serial));
    unsigned number = zangjulf_next_write(&line, out, sizeof out, &write);
    print_write(stdout, number, serial, out, write.size);
}

/* The library waits for slaves outside the line, and the program doesn't: they are unplugged. */
static void unplug_holders(uint8_t task) {
    uint16_t station;
    while (!zangjulf_held_by(&line, task, 0, &station))
        if (zangjulf_unplugged(&line, station)) exit(1);
}

/* The program sends no task while a block is owed. */
static void send_tasks(char **words, size_t count) {
    uint8_t tasks[ZANGJULF_TASKS];
    uint64_t serial = 0;
    uint32_t owed = 0;
    struct zangjulf_sent sent;
    if (count > ZANGJULF_TASKS) exit(2);
    for (size_t i = 0; i < count; i++) {
        tasks[i] = (uint8_t)number_in(words[i]);
        if (tasks[i] < ZANGJULF_TASKS) continue;
        print_refusal(stdout, ZANGJULF_NO_SUCH_TASK);
        return;
    }
    ignore(zangjulf_next_serial(&line, &serial)), ignore(zangjulf_owed(&line, &owed));
    if (owed) {
        print_unprogrammed(stdout, owed);
        return;
    }
    for (size_t i = 0; i < count; i++) unplug_holders(tasks[i]);
    unsigned number = zangjulf_send(&line, tasks, count, out, sizeof out, NULL, 0, &sent);
    print_sending(stdout, number, serial, out, &sent);
}

static void arrive(const char *word) {
    struct zangjulf_outcome outcomes[ZANGJULF_OUTCOMES];
    struct zangjulf_arrival arrival = {0};
    size_t size = strlen(word) / 2;
    for (size_t i = 0; i < size; i++) {
        unsigned byte;
        if (sscanf(word + 2 * i, "%2x", &byte) != 1) exit(2);
        out[i] = (uint8_t)byte;
    }
    unsigned number = zangjulf_arrive(&line, out, size, outcomes, ZANGJULF_OUTCOMES, &arrival);
    print_arrival(stdout, number, &arrival, outcomes);
}

/* The program prints the data of the present epoch alone. */
static void read_task(unsigned long task) {
    uint64_t serials[ZANGJULF_DATAGRAMS];
    struct zangjulf_image image = {0};
    unsigned number = zangjulf_read(&line, (uint8_t)task, out, sizeof out, serials, ZANGJULF_DATAGRAMS, &image);
    for (size_t d = 0; !number && d < image.datagrams; d++)
        if (serials[d] < first) image.has &= (uint16_t)~(1u << d);
    print_image(stdout, number, &line, (uint8_t)task, &image, out);
}

static void show(unsigned long task, unsigned long datagram) {
    uint64_t serial = 0;
    size_t size = 0;
    ignore(zangjulf_next_serial(&line, &serial));
    unsigned number = zangjulf_preview(&line, (uint8_t)task, (uint8_t)datagram, out, sizeof out, &size);
    print_preview(stdout, number, (unsigned)task, serial, out, size);
}

static void find(unsigned long variable) {
    struct zangjulf_place place;
    unsigned number = zangjulf_place(&line, (uint32_t)variable, &place);
    print_place(stdout, number, (uint32_t)variable, &place);
}

static bool same_cost(const struct zangjulf_cost *a, const struct zangjulf_cost *b) {
    return a->epoch == b->epoch && a->recut == b->recut && a->moved == b->moved && a->places == b->places;
}

/* What an edit answered. What it would cost is asked before it is carried out: both must answer the same. */
static void print_edit(unsigned asked, const struct zangjulf_cost *would, unsigned number, const struct zangjulf_cost *cost) {
    if (asked != number || (!number && !same_cost(would, cost))) {
        printf("asked %u, answered %u\n", asked, number);
        exit(1);
    }
    print_edit_answer(stdout, number, cost);
}

static unsigned edit(char **words, size_t count, bool asks, struct zangjulf_cost *cost) {
    uint16_t pdos[64];
    memset(cost, 0, sizeof *cost);
    if (!strcmp(words[0], "connect")) return zangjulf_connect(&line, (uint16_t)number_in(words[1]), asks, cost);
    if (!strcmp(words[0], "disconnect")) return zangjulf_disconnect(&line, (uint16_t)number_in(words[1]), asks, cost);
    uint16_t station = (uint16_t)number_in(words[1]);
    uint8_t area = (uint8_t)number_in(words[2]);
    if (!strcmp(words[0], "move")) return zangjulf_move_area(&line, station, area, (uint8_t)number_in(words[3]), asks, cost);
    for (size_t i = 3; i < count && i < 67; i++) pdos[i - 3] = (uint16_t)number_in(words[i]);
    return zangjulf_remap(&line, station, area, pdos, count - 3, asks, cost);
}

static void run(char **words, size_t count) {
    const char *name = words[0];
    if (!strcmp(name, "layout") && count == 1) print_layout(stdout, &line);
    else if (!strcmp(name, "regs") && count == 2) print_blocks(stdout, &line, (uint16_t)number_in(words[1]));
    else if (!strcmp(name, "show") && count == 3) show(number_in(words[1]), number_in(words[2]));
    else if (!strcmp(name, "place") && count == 2) find(number_in(words[1]));
    else if (!strcmp(name, "write") && count == 1) write_block();
    else if (!strcmp(name, "send") && count > 1) send_tasks(words + 1, count - 1);
    else if (!strcmp(name, "arrive") && count == 2) arrive(words[1]);
    else if (!strcmp(name, "read") && count == 2) read_task(number_in(words[1]));
    else if ((!strcmp(name, "connect") || !strcmp(name, "disconnect")) == (count == 2) && count > 1) {
        struct zangjulf_cost would, cost;
        unsigned asked = edit(words, count, true, &would);
        unsigned number = edit(words, count, false, &cost);
        if (!number) ignore(zangjulf_next_serial(&line, &first));
        print_edit(asked, &would, number, &cost);
    } else exit(2);
}

/* The end of the project text: the first line that is `%%` alone. */
static char *end_of_project(char *input) {
    for (char *at = input; at; at = strchr(at, '\n'), at = at ? at + 1 : NULL)
        if (!strncmp(at, "%%\n", 3) || !strcmp(at, "%%")) return at;
    return NULL;
}

int main(void) {
    static char input[MOST_INPUT + 1];
    input[fread(input, 1, MOST_INPUT, stdin)] = 0;
    char *end = end_of_project(input);
    if (!end) return 2;
    uint8_t task = 0;
    struct zangjulf_options options = {sizeof options, 0};
    unsigned number = zangjulf_open(&line, &options, (const uint8_t *)input, (size_t)(end - input), &task);
    if (number) {
        print_opening(stdout, number, task);
        return 3;
    }
    char *rest;
    for (char *text = strtok_r(end + 2, "\n", &rest); text; text = strtok_r(NULL, "\n", &rest)) {
        char *words[256], *left;
        size_t count = 0;
        for (char *word = strtok_r(text, " ", &left); word && count < 256; word = strtok_r(NULL, " ", &left))
            words[count++] = word;
        if (count) run(words, count);
    }
    return zangjulf_close(&line);
}
