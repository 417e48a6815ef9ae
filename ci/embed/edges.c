/* What a C caller may do wrong or unluckily: closed handles, slices that are too short, tasks that can't be sent together,
 * growths of memory that are refused; and a simulated line, written, sent and read (edges_line.c). It is given the project of the
 * tool changer, and ends with status 1 at the first answer that isn't the one in include/zangjulf.h. Growths are refused
 * where it is linked with --wrap=malloc, --wrap=realloc and --wrap=free, and WRAPPED is defined. */
#include <stdio.h>
#include <stdlib.h>
#include <string.h>

#include "edges.h"
#ifdef WRAPPED
#include "growths.h"
#endif

uint8_t text[1 << 16];
size_t length;
const struct zangjulf_options options = {sizeof options, 0};

void fail(const char *file, int line, const char *fact) {
    printf("%s:%d: not so: %s\n", file, line, fact);
    exit(1);
}

uint8_t *slice(size_t size) {
    uint8_t *bytes = malloc(size ? size : 1);
    memset(bytes, 0xaa, size);
    return bytes;
}

static void closed(void) {
    struct zangjulf line = {0};
    uint8_t byte = 7, tasks[1] = {0};
    uint16_t word = 7;
    uint32_t number = 7;
    uint64_t serial = 7;
    uint64_t serials[16];
    size_t size = 7;
    struct zangjulf_sent sent = {.size = 7, .waits = {.task = 7}};
    struct zangjulf_frame table[1] = {{7, 7}};
    struct zangjulf_write write = {.size = 7};
    struct zangjulf_writes writes = {7, 7};
    struct zangjulf_owed_block owed = {.size = 7};
    struct zangjulf_counters counters = {7, 7, 7, 7};
    struct zangjulf_outcome outcomes[1];
    struct zangjulf_arrival arrival = {.serial = 7};
    struct zangjulf_image image;
    struct zangjulf_cost cost;
    struct zangjulf_place place;
    struct zangjulf_datagram datagram;
    struct zangjulf_image_sizes sizes;
    struct zangjulf_seat seat = {0};
    struct zangjulf_taken taken;
    struct zangjulf_block block;
    EXPECT(zangjulf_epoch(&line, &number) == ZANGJULF_CLOSED && number == 7);
    EXPECT(zangjulf_next_serial(&line, &serial) == ZANGJULF_CLOSED && serial == 7);
    EXPECT(zangjulf_owed(&line, &number) == ZANGJULF_CLOSED && number == 7);
    EXPECT(zangjulf_post(&line, 0, 0, &byte, 1) == ZANGJULF_CLOSED);
    EXPECT(zangjulf_next_write(&line, &byte, 1, &write) == ZANGJULF_CLOSED && byte == 7 && write.size == 7);
    EXPECT(zangjulf_next_writes(&line, &byte, 1, &writes) == ZANGJULF_CLOSED && byte == 7 && writes.size == 7 && writes.blocks == 7);
    EXPECT(zangjulf_further_writes(&line, &byte, 1, &writes) == ZANGJULF_CLOSED && byte == 7 && writes.size == 7 && writes.blocks == 7);
    EXPECT(zangjulf_owed_block(&line, 0, &owed) == ZANGJULF_CLOSED && owed.size == 7);
    EXPECT(zangjulf_slave_lost(&line, 1002) == ZANGJULF_CLOSED);
    EXPECT(zangjulf_cleared(&line, 1002) == ZANGJULF_CLOSED && zangjulf_unplugged(&line, 1002) == ZANGJULF_CLOSED);
    EXPECT(zangjulf_ready(&line, &byte) == ZANGJULF_CLOSED && byte == 7);
    EXPECT(zangjulf_held_by(&line, 0, 0, &word) == ZANGJULF_CLOSED && word == 7);
    EXPECT(zangjulf_counters(&line, 0, 0, &counters) == ZANGJULF_CLOSED && counters.sent == 7);
    EXPECT(zangjulf_send(&line, tasks, 1, &byte, 1, table, 1, &sent) == ZANGJULF_CLOSED && byte == 7 && sent.size == 7 && sent.waits.task == 7 && table[0].size == 7);
    EXPECT(zangjulf_arrive(&line, &byte, 1, outcomes, 1, &arrival) == ZANGJULF_CLOSED && arrival.serial == 7);
    EXPECT(zangjulf_read(&line, 0, &byte, 1, serials, 16, &image) == ZANGJULF_CLOSED && byte == 7);
    EXPECT(zangjulf_preview(&line, 0, 0, &byte, 1, &size) == ZANGJULF_CLOSED && byte == 7);
    EXPECT(zangjulf_place(&line, 1, &place) == ZANGJULF_CLOSED);
    EXPECT(zangjulf_places(&line, &number, 1, &place, 1) == ZANGJULF_CLOSED);
    EXPECT(zangjulf_datagram(&line, 0, 0, &datagram) == ZANGJULF_CLOSED);
    EXPECT(zangjulf_image_sizes(&line, 0, &sizes) == ZANGJULF_CLOSED);
    EXPECT(zangjulf_station(&line, 0, &word) == ZANGJULF_CLOSED && word == 7);
    EXPECT(zangjulf_position(&line, 1001, &number) == ZANGJULF_CLOSED && number == 7);
    EXPECT(zangjulf_expected_of(&line, 0, 0, 1002, &word) == ZANGJULF_CLOSED && word == 7);
    EXPECT(zangjulf_block(&line, 1002, 0, &byte, 1, &block) == ZANGJULF_CLOSED && byte == 7);
    EXPECT(zangjulf_connect(&line, 100, false, &cost) == ZANGJULF_CLOSED);
    EXPECT(zangjulf_disconnect(&line, 100, false, &cost) == ZANGJULF_CLOSED);
    EXPECT(zangjulf_remap(&line, 1002, 0, &word, 1, false, &cost) == ZANGJULF_CLOSED);
    EXPECT(zangjulf_move_area(&line, 1002, 0, 1, false, &cost) == ZANGJULF_CLOSED);
    EXPECT(zangjulf_declare(&line, &byte, 1, false, &cost) == ZANGJULF_CLOSED);
    EXPECT(zangjulf_put_value(&line, 1, 0, 1, &byte, 1) == ZANGJULF_CLOSED && byte == 7);
    EXPECT(zangjulf_get_value(&line, 1, 0, &byte, 1, &serial) == ZANGJULF_CLOSED && serial == 7);
    EXPECT(zangjulf_seat_open(&line, 0, &seat) == ZANGJULF_CLOSED && zangjulf_look_open(&line, 0, 0, &seat) == ZANGJULF_CLOSED && !seat.mark);
    EXPECT(zangjulf_show(&line) == ZANGJULF_CLOSED && zangjulf_take_posts(&line, &taken) == ZANGJULF_CLOSED);
    EXPECT(zangjulf_close(&line) == ZANGJULF_CLOSED && !line.mark);
    zangjulf_free(&line), zangjulf_free(NULL);
}

/* A handle that was never set to zeros: each call says so, and leaves it. An open line stays open when it is opened again. */
static void strange(void) {
    struct zangjulf line = {.mark = 0x5555555555555555}, before;
    struct zangjulf_options large = options, many = options;
    uint32_t number = 7;
    uint8_t task = 7, byte = 7;
    large.size++, many.lookers = ZANGJULF_LOOKERS + 1;
    EXPECT(zangjulf_open(&line, &options, text, length, &task) == ZANGJULF_MISUSED && line.mark == 0x5555555555555555 && !line.at);
    EXPECT(zangjulf_epoch(&line, &number) == ZANGJULF_MISUSED && number == 7);
    EXPECT(zangjulf_post(&line, 0, 0, &byte, 1) == ZANGJULF_MISUSED && zangjulf_show(&line) == ZANGJULF_MISUSED);
    EXPECT(zangjulf_cleared(&line, 1002) == ZANGJULF_MISUSED && zangjulf_close(&line) == ZANGJULF_MISUSED && line.mark);
    line.mark = 0;
    EXPECT(zangjulf_open(&line, &large, text, length, &task) == ZANGJULF_MISUSED && !line.mark);
    EXPECT(zangjulf_open(&line, &many, text, length, &task) == ZANGJULF_MISUSED && !line.mark && task == 7);
    many.lookers = ZANGJULF_LOOKERS;
    EXPECT(zangjulf_open(&line, &many, text, length, &task) == ZANGJULF_DONE && line.mark);
    EXPECT(zangjulf_post(&line, 7, 0, NULL, 0) == ZANGJULF_DONE);
    before = line;
    EXPECT(zangjulf_open(&line, &options, text, length, &task) == ZANGJULF_MISUSED && zangjulf_open(&line, &options, NULL, 0, &task) == ZANGJULF_MISUSED);
    EXPECT(line.mark == before.mark && line.at == before.at && zangjulf_owed(&line, &number) == ZANGJULF_DONE && number == 12);
    EXPECT(zangjulf_close(&line) == ZANGJULF_DONE && !line.mark && zangjulf_close(&line) == ZANGJULF_CLOSED);
}

static void misused(void) {
    struct zangjulf line = {0};
    uint8_t task = 0, twice[2] = {1, 1}, nine[9] = {0, 1, 2, 3, 4, 5, 6, 7, 8}, *out = slice(59);
    struct zangjulf_sent sent = {0};
    struct zangjulf_write write = {0};
    struct zangjulf_writes writes = {7, 7};
    struct zangjulf_owed_block block;
    struct zangjulf_outcome outcome;
    struct zangjulf_arrival arrival = {.serial = 7};
    uint32_t owed = 0;
    EXPECT(zangjulf_open(&line, &options, (const uint8_t *)"x", 1, &task) == ZANGJULF_PROJECT_NOT_TOML && !line.mark);
    EXPECT(zangjulf_open(&line, &options, (const uint8_t *)"[[slave]]", 9, &task) == ZANGJULF_PROJECT_MISSING_FIELD && !line.mark);
    EXPECT(zangjulf_open(&line, &options, text, length, &task) == ZANGJULF_DONE && line.mark);
    EXPECT(zangjulf_send(&line, twice, 2, out, 59, NULL, 0, &sent) == ZANGJULF_MISUSED);
    EXPECT(zangjulf_send(&line, nine, 9, out, 59, NULL, 0, &sent) == ZANGJULF_MISUSED);
    EXPECT(zangjulf_send(&line, nine, 0, out, 59, NULL, 0, &sent) == ZANGJULF_MISUSED);
    /* after the opening every FMMU is unknown: a task waits for its own four sync managers' blocks and all six FMMUs' */
    EXPECT(zangjulf_send(&line, nine, 1, out, 59, NULL, 0, &sent) == ZANGJULF_WAITS && sent.waits.task == 0 && sent.waits.blocks == 10 && !sent.waits.outside);
    EXPECT(zangjulf_send(&line, nine + 8, 1, out, 59, NULL, 0, &sent) == ZANGJULF_NO_SUCH_TASK && !sent.size && !sent.frames);
    /* three slaves with an output and an input area each, two blocks an area */
    EXPECT(zangjulf_owed(&line, &owed) == ZANGJULF_DONE && owed == 12);
    EXPECT(zangjulf_owed_block(&line, 0, &block) == ZANGJULF_DONE && block.station == 1002 && block.start == 0x0810 && block.size == 8);
    EXPECT(zangjulf_owed_block(&line, 11, &block) == ZANGJULF_DONE && block.size == 16);
    EXPECT(zangjulf_owed_block(&line, 12, &block) == ZANGJULF_NOTHING);
    EXPECT(zangjulf_next_write(&line, out, 59, &write) == ZANGJULF_ROOM && write.size == 60 && out[0] == 0xaa);
    /* six blocks of 8 bytes and six of 16 in one frame: 16 + 12 * 12 + 6 * 24 */
    EXPECT(zangjulf_next_writes(&line, out, 59, &writes) == ZANGJULF_ROOM && writes.size == 304 && writes.blocks == 7 && out[0] == 0xaa);
    EXPECT(zangjulf_arrive(&line, out, 27, &outcome, 0, &arrival) == ZANGJULF_SHORT && arrival.serial == 7);
    /* a slice without elements may be NULL */
    EXPECT(zangjulf_post(&line, 0, 0, NULL, 0) == ZANGJULF_POST_LENGTH && zangjulf_post(&line, 7, 0, NULL, 0) == ZANGJULF_DONE);
    EXPECT(zangjulf_arrive(&line, NULL, 0, NULL, 0, &arrival) == ZANGJULF_SHORT && zangjulf_send(&line, NULL, 0, NULL, 0, NULL, 0, &sent) == ZANGJULF_MISUSED);
    EXPECT(zangjulf_next_write(&line, NULL, 0, &write) == ZANGJULF_ROOM && zangjulf_locate(NULL, 0, &(struct zangjulf_location){0}) == ZANGJULF_DONE);
    EXPECT(zangjulf_post(&line, 0, 0, out, 13) == ZANGJULF_POST_LENGTH);
    EXPECT(zangjulf_post(&line, 0, 1, out, 14) == ZANGJULF_STALE_POST);
    EXPECT(zangjulf_post(&line, 8, 1, out, 0) == ZANGJULF_NO_SUCH_TASK);
    EXPECT(zangjulf_post(&line, 0, 0, out, 14) == ZANGJULF_DONE);
    EXPECT(zangjulf_close(&line) == ZANGJULF_DONE);
    free(out);
}

/* Bits of a slice, and what isn't a run of it; a value by its variable: 21 is the control word of axis Y, in bytes 8 and 9. */
static void bits(void) {
    struct zangjulf line = {0};
    struct zangjulf_place place;
    uint64_t value = 7;
    uint8_t task, *bytes = slice(14);
    EXPECT(zangjulf_get_bits(bytes, 14, 0, 8, &value) == ZANGJULF_DONE && value == 0xaa);
    EXPECT(zangjulf_get_bits(bytes, 14, 49, 63, &value) == ZANGJULF_DONE && value == 0x5555555555555555);
    EXPECT(zangjulf_get_bits(bytes, 14, 49, 64, &value) == ZANGJULF_MISUSED && zangjulf_get_bits(bytes, 14, 0, 65, &value) == ZANGJULF_MISUSED);
    EXPECT(zangjulf_get_bits(bytes, 14, 0, 0, &value) == ZANGJULF_MISUSED && zangjulf_get_bits(bytes, 14, SIZE_MAX, 1, &value) == ZANGJULF_MISUSED);
    EXPECT(zangjulf_put_bits(bytes, 14, 3, 2, 4) == ZANGJULF_TOO_WIDE && bytes[0] == 0xaa && value == 0x5555555555555555);
    EXPECT(zangjulf_put_bits(bytes, 14, 7, 2, 0) == ZANGJULF_DONE && bytes[0] == 0x2a && bytes[1] == 0xaa);
    EXPECT(zangjulf_open(&line, &options, text, length, &task) == ZANGJULF_DONE);
    EXPECT(zangjulf_place(&line, 21, &place) == ZANGJULF_DONE && !place.is_input && place.image_bit == 64);
    EXPECT(zangjulf_put_value(&line, 21, 0, 0x1234, bytes, 14) == ZANGJULF_DONE && bytes[8] == 0x34 && bytes[9] == 0x12 && bytes[10] == 0xaa);
    EXPECT(zangjulf_get_value(&line, 21, 0, bytes, 14, &value) == ZANGJULF_DONE && value == 0x1234);
    EXPECT(zangjulf_put_value(&line, 12, 0, 1, bytes, 14) == ZANGJULF_IS_INPUT);
    EXPECT(zangjulf_put_value(&line, 21, 0, (uint64_t)1 << place.bits, bytes, 14) == ZANGJULF_TOO_WIDE);
    EXPECT(zangjulf_put_value(&line, 21, 1, 1, bytes, 14) == ZANGJULF_STALE_POST && zangjulf_get_value(&line, 21, 1, bytes, 14, &value) == ZANGJULF_STALE_POST);
    EXPECT(zangjulf_put_value(&line, 21, 0, 1, bytes, 9) == ZANGJULF_ROOM && zangjulf_put_value(&line, 99999, 0, 1, bytes, 14) == ZANGJULF_NOTHING);
    EXPECT(zangjulf_close(&line) == ZANGJULF_DONE);
    free(bytes);
}

/* A table of places. */
static void tables(void) {
    const uint32_t variables[3] = {21, 99999, 12};
    struct zangjulf line = {0};
    struct zangjulf_place places[4], one, none;
    uint8_t task;
    memset(places, 7, sizeof places), memset(&none, 0, sizeof none);
    EXPECT(zangjulf_open(&line, &options, text, length, &task) == ZANGJULF_DONE);
    EXPECT(zangjulf_places(&line, variables, 3, places, 2) == ZANGJULF_MISUSED && places[0].bits == 7);
    EXPECT(zangjulf_places(&line, variables, 3, places, 4) == ZANGJULF_DONE && places[3].bits == 7 && !memcmp(&places[1], &none, sizeof none));
    EXPECT(zangjulf_place(&line, 21, &one) == ZANGJULF_DONE && places[0].image_bit == one.image_bit && places[0].bits == one.bits && one.image_bit == 64);
    EXPECT(places[2].is_input && places[2].task == 0 && zangjulf_places(&line, NULL, 0, NULL, 0) == ZANGJULF_DONE);
    EXPECT(zangjulf_close(&line) == ZANGJULF_DONE);
}

/* What a slave adds to an expected counter (ETG.1000.4: 1 that is read, 2 that is written): each axis both, the coupler nothing. */
static void added(void) {
    struct zangjulf line = {0};
    uint8_t task;
    uint16_t adds = 7;
    EXPECT(zangjulf_open(&line, &options, text, length, &task) == ZANGJULF_DONE);
    EXPECT(zangjulf_expected_of(&line, 0, 1, 1002, &adds) == ZANGJULF_NOTHING && zangjulf_expected_of(&line, 8, 0, 1002, &adds) == ZANGJULF_NOTHING);
    EXPECT(zangjulf_expected_of(&line, 0, 0, 2001, &adds) == ZANGJULF_NOTHING && adds == 7);
    EXPECT(zangjulf_expected_of(&line, 0, 0, 1001, &adds) == ZANGJULF_DONE && adds == 0);
    EXPECT(zangjulf_expected_of(&line, 0, 0, 1002, &adds) == ZANGJULF_DONE && adds == 3);
    EXPECT(zangjulf_expected_of(&line, 1, 0, 1002, &adds) == ZANGJULF_DONE && adds == 0);
    EXPECT(zangjulf_expected_of(&line, 1, 0, 1004, &adds) == ZANGJULF_DONE && adds == 3);
    EXPECT(zangjulf_close(&line) == ZANGJULF_DONE);
}

/* The frame that switches off a slave's FMMUs. */
static void fmmus_off(void) {
    size_t size = 7;
    uint8_t *out = slice(60), *long_out = slice(284), *memory = slice(ZANGJULF_SLAVE_MEMORY);
    EXPECT(zangjulf_fmmu_off(2001, 0, out, 60, &size) == ZANGJULF_MISUSED && zangjulf_fmmu_off(2001, 17, out, 60, &size) == ZANGJULF_MISUSED);
    EXPECT(size == 7 && out[0] == 0xaa);
    EXPECT(zangjulf_fmmu_off(2001, 1, out, 59, &size) == ZANGJULF_ROOM && size == 60 && out[0] == 0xaa);
    EXPECT(zangjulf_fmmu_off(2001, 3, out, 60, &size) == ZANGJULF_ROOM && size == 76 && out[0] == 0xaa);
    EXPECT(zangjulf_fmmu_off(2001, 2, out, 60, &size) == ZANGJULF_DONE && size == 60);
    /* FPWR, station 2001, register 0x0600, 32 bytes of zeros, counter 0 */
    EXPECT(out[16] == 5 && out[18] == 0xd1 && out[19] == 7 && !out[20] && out[21] == 6 && out[22] == 32 && !out[23]);
    for (size_t i = 24; i < 60; i++) EXPECT(!out[i]);
    EXPECT(zangjulf_fmmu_off(1, 16, long_out, 284, &size) == ZANGJULF_DONE && size == 284 && long_out[23] == 1 && !long_out[22]);
    /* it takes the FMMUs that it names, and leaves the next one and the sync managers */
    EXPECT(zangjulf_slave_start(memory, ZANGJULF_SLAVE_MEMORY, 0) == ZANGJULF_DONE);
    memory[0x10] = 0xd1;
    memory[0x11] = 7;
    memset(memory + 0x600, 1, 0x300);
    EXPECT(zangjulf_slave_process(memory, ZANGJULF_SLAVE_MEMORY, out, 60) == ZANGJULF_DONE && out[58] == 1 && !out[59]);
    for (size_t i = 0x600; i < 0x900; i++) EXPECT(memory[i] == (i >= 0x620));
    free(out);
    free(long_out);
    free(memory);
}

/* Frames beside the line's, and where a text is no project. */
static void beside(void) {
    struct zangjulf_location location;
    uint8_t *out = slice(60), other[14] = {[6] = ZANGJULF_OTHER_SOURCE, [12] = 0x88, [13] = 0xa4};
    size_t size = 0;
    EXPECT(zangjulf_alias_read(2, out, 59, &size) == ZANGJULF_ROOM && size == 60 && out[0] == 0xaa);
    EXPECT(zangjulf_alias_read(2, out, 60, &size) == ZANGJULF_DONE && size == 60);
    /* APRD at position 2: the low word of the address is 2 below zero; register 0x0012 */
    EXPECT(out[16] == 1 && out[18] == 0xfe && out[19] == 0xff && out[20] == 0x12 && !out[21] && zangjulf_is_mine(out, 60));
    EXPECT(zangjulf_station_write(0, 1001, out, 60, &size) == ZANGJULF_DONE && out[16] == 2 && !out[18] && out[20] == 0x10 && out[26] == 0xe9 && out[27] == 3);
    EXPECT(!zangjulf_is_mine(other, 14) && !zangjulf_is_mine(out, 13));
    fmmus_off();
    EXPECT(zangjulf_locate(text, length, &location) == ZANGJULF_DONE);
    EXPECT(zangjulf_locate((const uint8_t *)"a = 1\n b = [", 12, &location) == ZANGJULF_PROJECT_NOT_TOML && location.line == 2);
    static const char stationless[] = "[[slave]]\nstation = 7\n[[slave]]\n";
    EXPECT(zangjulf_locate((const uint8_t *)stationless, sizeof stationless - 1, &location) == ZANGJULF_PROJECT_MISSING_FIELD);
    EXPECT(location.place.slave == 1 && location.place.key == ZANGJULF_KEY_STATION && location.place.area == ZANGJULF_NOWHERE && !location.line);
    EXPECT(!strcmp(zangjulf_name(18), "NOTHING_OWED") && !strcmp(zangjulf_name(17), "UNKNOWN"));
    free(out);
}

#ifdef WRAPPED
/* Each growth of an opening refused in turn: a closed handle, and nothing live. */
static void refused_openings(void) {
    long before = live, growths = 0;
    for (bool is_spent = true; is_spent; growths++) {
        struct zangjulf line = {0};
        uint8_t task;
        left = growths;
        unsigned number = zangjulf_open(&line, &options, text, length, &task);
        is_spent = left < 0;
        left = -1;
        EXPECT(number == (is_spent ? ZANGJULF_MEMORY : ZANGJULF_DONE) && !line.mark == is_spent);
        EXPECT(zangjulf_close(&line) == (is_spent ? ZANGJULF_CLOSED : ZANGJULF_DONE));
        EXPECT(live == before);
    }
    EXPECT(growths > 100);
}

/* Each growth of an edit refused in turn: the line as it was, and then the edit. */
static void refused_edits(void) {
    struct zangjulf line = {0};
    struct zangjulf_cost cost;
    uint8_t task;
    uint32_t epoch = 0;
    EXPECT(zangjulf_open(&line, &options, text, length, &task) == ZANGJULF_DONE);
    for (long growths = 0;; growths++) {
        left = growths;
        unsigned number = zangjulf_connect(&line, 100, false, &cost);
        bool is_spent = left < 0;
        left = -1;
        EXPECT(number == (is_spent ? ZANGJULF_MEMORY : ZANGJULF_DONE));
        EXPECT(zangjulf_epoch(&line, &epoch) == ZANGJULF_DONE && epoch == !is_spent);
        if (!is_spent) break;
    }
    EXPECT(zangjulf_close(&line) == ZANGJULF_DONE);
}
#endif

int main(int count, char **words) {
    FILE *in = count == 2 ? fopen(words[1], "rb") : NULL;
    if (!in) return 2;
    length = fread(text, 1, sizeof text, in);
    fclose(in);
    closed();
    strange();
    misused();
    bits();
    added();
    tables();
    beside();
    line_of_slaves();
#ifdef WRAPPED
    refused_openings();
    refused_edits();
#endif
    printf("edges: all as told\n");
    return 0;
}
