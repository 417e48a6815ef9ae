/* Prints where the header's structs have their fields: a line for each, with its struct, its name, its first byte and its bytes;
 * and one for each struct, with its bytes. The bindings' declarations are compared with it. */
#include <stddef.h>
#include <stdio.h>

#include "zangjulf.h"

#define STRUCT(type) printf("%s - 0 %zu\n", #type, sizeof(struct type))
#define FIELD(type, field) printf("%s %s %zu %zu\n", #type, #field, offsetof(struct type, field), sizeof(((struct type *)0)->field))

static void of_the_line(void) {
    STRUCT(zangjulf), FIELD(zangjulf, mark), FIELD(zangjulf, at);
    STRUCT(zangjulf_options), FIELD(zangjulf_options, size), FIELD(zangjulf_options, lookers);
    STRUCT(zangjulf_place), FIELD(zangjulf_place, task), FIELD(zangjulf_place, datagram), FIELD(zangjulf_place, bits);
    FIELD(zangjulf_place, is_input), FIELD(zangjulf_place, bit), FIELD(zangjulf_place, image_bit);
    STRUCT(zangjulf_datagram), FIELD(zangjulf_datagram, address), FIELD(zangjulf_datagram, length);
    FIELD(zangjulf_datagram, expected), FIELD(zangjulf_datagram, offset);
    STRUCT(zangjulf_image_sizes), FIELD(zangjulf_image_sizes, outputs), FIELD(zangjulf_image_sizes, inputs);
    STRUCT(zangjulf_block), FIELD(zangjulf_block, start), FIELD(zangjulf_block, size);
    STRUCT(zangjulf_cost), FIELD(zangjulf_cost, epoch), FIELD(zangjulf_cost, recut), FIELD(zangjulf_cost, moved);
    FIELD(zangjulf_cost, places), FIELD(zangjulf_cost, crowded), FIELD(zangjulf_cost, waits), FIELD(zangjulf_cost, reserved);
    STRUCT(zangjulf_owed_block), FIELD(zangjulf_owed_block, station), FIELD(zangjulf_owed_block, start);
    FIELD(zangjulf_owed_block, size), FIELD(zangjulf_owed_block, reserved);
}

static void of_frames(void) {
    STRUCT(zangjulf_write), FIELD(zangjulf_write, size), FIELD(zangjulf_write, block);
    STRUCT(zangjulf_writes), FIELD(zangjulf_writes, size), FIELD(zangjulf_writes, blocks);
    STRUCT(zangjulf_frame), FIELD(zangjulf_frame, offset), FIELD(zangjulf_frame, size);
    STRUCT(zangjulf_waits), FIELD(zangjulf_waits, blocks), FIELD(zangjulf_waits, outside), FIELD(zangjulf_waits, task);
    FIELD(zangjulf_waits, reserved);
    STRUCT(zangjulf_sent), FIELD(zangjulf_sent, first_serial), FIELD(zangjulf_sent, size), FIELD(zangjulf_sent, frames);
    FIELD(zangjulf_sent, waits), FIELD(zangjulf_sent, reserved);
    STRUCT(zangjulf_outcome), FIELD(zangjulf_outcome, kind), FIELD(zangjulf_outcome, task);
    FIELD(zangjulf_outcome, datagram), FIELD(zangjulf_outcome, reserved), FIELD(zangjulf_outcome, expected);
    FIELD(zangjulf_outcome, got), FIELD(zangjulf_outcome, at), FIELD(zangjulf_outcome, length);
    FIELD(zangjulf_outcome, station), FIELD(zangjulf_outcome, start);
    STRUCT(zangjulf_arrival), FIELD(zangjulf_arrival, serial), FIELD(zangjulf_arrival, datagrams);
    FIELD(zangjulf_arrival, kind), FIELD(zangjulf_arrival, reserved);
    STRUCT(zangjulf_image), FIELD(zangjulf_image, first_serial), FIELD(zangjulf_image, epoch);
    FIELD(zangjulf_image, task_epoch), FIELD(zangjulf_image, size), FIELD(zangjulf_image, datagrams);
    FIELD(zangjulf_image, has), FIELD(zangjulf_image, state), FIELD(zangjulf_image, reserved);
    STRUCT(zangjulf_counters), FIELD(zangjulf_counters, sent), FIELD(zangjulf_counters, good);
    FIELD(zangjulf_counters, wrong), FIELD(zangjulf_counters, again);
}

static void of_seats(void) {
    STRUCT(zangjulf_seat), FIELD(zangjulf_seat, mark), FIELD(zangjulf_seat, at);
    STRUCT(zangjulf_view), FIELD(zangjulf_view, showing), FIELD(zangjulf_view, first_serial), FIELD(zangjulf_view, taken);
    FIELD(zangjulf_view, epoch), FIELD(zangjulf_view, task_epoch), FIELD(zangjulf_view, size), FIELD(zangjulf_view, outputs);
    FIELD(zangjulf_view, datagrams), FIELD(zangjulf_view, has), FIELD(zangjulf_view, state), FIELD(zangjulf_view, line);
    FIELD(zangjulf_view, is_refused), FIELD(zangjulf_view, reserved);
    STRUCT(zangjulf_taken), FIELD(zangjulf_taken, accepted), FIELD(zangjulf_taken, refused), FIELD(zangjulf_taken, reserved);
}

static void of_faults(void) {
    STRUCT(zangjulf_spot), FIELD(zangjulf_spot, group), FIELD(zangjulf_spot, slave), FIELD(zangjulf_spot, area);
    FIELD(zangjulf_spot, pdo), FIELD(zangjulf_spot, item), FIELD(zangjulf_spot, alias), FIELD(zangjulf_spot, station);
    FIELD(zangjulf_spot, key);
    STRUCT(zangjulf_location), FIELD(zangjulf_location, line), FIELD(zangjulf_location, column);
    FIELD(zangjulf_location, place), FIELD(zangjulf_location, first);
}

int main(void) {
    of_the_line();
    of_frames();
    of_seats();
    of_faults();
    return 0;
}
