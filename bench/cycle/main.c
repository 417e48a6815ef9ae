/* Cycles of the library beside plain C with the same duties, on each line of lines.c: `send`, the wire, `arrive`; with a seat also
 * the task's view and post, and `take_posts` and `show` of the owner. First both sides play the same cycles, and each frame and each
 * image must be equal.
 *
 *     cycle                     of each line its name and the ratio of times, medians of turns, the wire taken off
 *     cycle count SIDE LINE N   N cycles of a side, for counting instructions: library, plain or wire
 */
#define _POSIX_C_SOURCE 200809L
#include <stdio.h>
#include <stdlib.h>
#include <string.h>
#include <time.h>

#include "lines.h"

#define TURNS 31
#define COMPARED 300

enum side { LIBRARY, PLAIN, WIRE, SIDES };
static const char *const NAMES[SIDES] = {"library", "plain", "wire"};

static struct sides sides;
static uint8_t frames[ZANGJULF_FRAMES], plain_frames[ZANGJULF_FRAMES], outputs[MOST_IMAGE], image[MOST_IMAGE], plain_image[MOST_IMAGE];
static uint64_t serials[DATAGRAMS], plain_serials[DATAGRAMS];
static struct zangjulf_frame table[ZANGJULF_FRAME_COUNT];
static size_t good; /* datagrams whose answer was good */

static void done(int answer, const char *call) {
    if (answer) give_up(call);
}

static size_t frame_size(const uint8_t *frame) {
    size_t size = 16 + ((frame[14] | frame[15] << 8) & 0x7ff);
    return size < 60 ? 60 : size;
}

static void library_seat(uint8_t value) {
    struct zangjulf_view view;
    struct zangjulf_taken taken;
    uint64_t number;
    done(zangjulf_seat_view(&sides.seat, image, sizeof image, serials, DATAGRAMS, &view), "seat_view");
    memset(outputs, value, view.outputs);
    done(zangjulf_seat_post(&sides.seat, view.epoch, outputs, view.outputs, &number), "seat_post");
    done(zangjulf_take_posts(&sides.library, &taken), "take_posts");
}

static void by_library(uint8_t value) {
    struct zangjulf_outcome outcomes[ZANGJULF_OUTCOMES];
    struct zangjulf_arrival arrival;
    struct zangjulf_sent sent;
    if (sides.line->has_seat) library_seat(value);
    done(zangjulf_send(&sides.library, sides.tasks, sides.line->tasks, frames, sizeof frames, table, ZANGJULF_FRAME_COUNT, &sent), "send");
    for (size_t i = 0; i < sent.frames; i++) {
        uint8_t *frame = frames + table[i].offset;
        pass(&sides, frame);
        done(zangjulf_arrive(&sides.library, frame, table[i].size, outcomes, ZANGJULF_OUTCOMES, &arrival), "arrive");
        good += arrival.datagrams && outcomes[arrival.datagrams - 1].kind == ZANGJULF_INPUTS;
    }
    if (sides.line->has_seat) done(zangjulf_show(&sides.library), "show");
}

static void plain_seat(uint8_t value) {
    uint32_t epoch;
    uint64_t number;
    done(plain_view(&sides.plain_seat, plain_image, sizeof plain_image, plain_serials, DATAGRAMS, &epoch), "plain_view");
    memset(outputs, value, sides.plain.tasks[0].outputs);
    done(plain_seat_post(&sides.plain_seat, epoch, outputs, sides.plain.tasks[0].outputs, &number), "plain_seat_post");
    done(plain_take_posts(&sides.plain), "plain_take_posts");
}

static void by_plain(uint8_t value) {
    struct plain_outcome outcomes[ZANGJULF_OUTCOMES];
    size_t size, count;
    if (sides.line->has_seat) plain_seat(value);
    done(plain_send(&sides.plain, sides.tasks, sides.line->tasks, plain_frames, sizeof plain_frames, &size), "plain_send");
    for (size_t at = 0, part; at < size; at += part) {
        uint8_t *frame = plain_frames + at;
        part = frame_size(frame);
        pass(&sides, frame);
        done(plain_arrive(&sides.plain, frame, part, outcomes, ZANGJULF_OUTCOMES, &count), "plain_arrive");
        good += count && outcomes[count - 1].kind == PLAIN_GOOD;
    }
    if (sides.line->has_seat) done(plain_show(&sides.plain), "plain_show");
}

/* The wire alone, over the frames of the last cycle. */
static void by_wire(uint8_t value) {
    memset(outputs, value, sides.line->has_seat ? sides.plain.tasks[0].outputs : 0);
    for (size_t at = 0; at < sides.plain.bytes; at += frame_size(plain_frames + at)) pass(&sides, plain_frames + at), good++;
}

static void run(enum side side, size_t cycles) {
    good = 0;
    for (size_t i = 0; i < cycles; i++) {
        if (side == LIBRARY) by_library((uint8_t)i);
        else if (side == PLAIN) by_plain((uint8_t)i);
        else by_wire((uint8_t)i);
    }
    if (good != cycles * sides.plain.frames) give_up("a frame isn't answered as it should be");
}

/* What each task reads is the same on both sides. */
static void compare_images(void) {
    for (uint8_t task = 0; task < sides.line->tasks; task++) {
        struct zangjulf_image read;
        done(zangjulf_read(&sides.library, task, image, sizeof image, serials, DATAGRAMS, &read), "read");
        const struct plain_task *plain = &sides.plain.tasks[task];
        if (read.size != plain->size || memcmp(image, plain->data, plain->size)) give_up("another image");
    }
}

/* Both sides play the same cycles. Each task that has no seat posts first. */
static void compare(void) {
    done(zangjulf_next_serial(&sides.library, &sides.plain.serial), "next_serial");
    for (size_t i = 0; i < COMPARED; i++) {
        for (uint8_t task = 0; task < sides.line->tasks && !sides.line->has_seat; task++) {
            memset(outputs, (int)(3 * i + task), sizeof outputs);
            done(zangjulf_post(&sides.library, task, 0, outputs, sides.plain.tasks[task].outputs), "post");
            done(plain_post(&sides.plain, task, 0, outputs, sides.plain.tasks[task].outputs), "plain_post");
        }
        by_library((uint8_t)i), by_plain((uint8_t)i);
        if (memcmp(frames, plain_frames, sides.plain.bytes)) give_up("another frame");
        if (sides.line->has_seat && (memcmp(image, plain_image, sides.plain.tasks[0].size) || serials[0] != plain_serials[0])) give_up("another view");
        compare_images();
    }
}

static double now(void) {
    struct timespec time;
    clock_gettime(CLOCK_MONOTONIC, &time);
    return (double)time.tv_sec * 1e9 + (double)time.tv_nsec;
}

static int by_size(const void *a, const void *b) {
    double difference = *(const double *)a - *(const double *)b;
    return (difference > 0) - (difference < 0);
}

static void print_times(size_t cycles) {
    double times[SIDES][TURNS];
    for (size_t turn = 0; turn < TURNS; turn++)
        for (int side = 0; side < SIDES; side++) {
            double begun = now();
            run((enum side)side, cycles);
            times[side][turn] = (now() - begun) / (double)cycles;
        }
    for (int side = 0; side < SIDES; side++) qsort(times[side], TURNS, sizeof(double), by_size);
    double wire = times[WIRE][TURNS / 2], library = times[LIBRARY][TURNS / 2] - wire, plain = times[PLAIN][TURNS / 2] - wire;
    printf("%s\t%.2f\n", sides.line->name, library / plain);
}

static enum side side_of(const char *name) {
    for (int side = 0; side < SIDES; side++)
        if (!strcmp(name, NAMES[side])) return (enum side)side;
    give_up("no such side");
}

int main(int count, char **words) {
    if (count == 5 && !strcmp(words[1], "count")) {
        size_t number = strtoul(words[3], NULL, 10);
        if (number >= LINES) return 2;
        open_sides(&sides, &LINE[number]);
        compare();
        run(side_of(words[2]), strtoul(words[4], NULL, 10));
        return 0;
    }
    if (count != 1) return 2;
    for (size_t i = 0; i < LINES; i++) {
        open_sides(&sides, &LINE[i]);
        compare();
        print_times(LINE[i].slaves > 100 ? 2000 : 40000);
        if (sides.line->has_seat) done(zangjulf_seat_close(&sides.seat), "seat_close");
        done(zangjulf_close(&sides.library), "close");
    }
    return 0;
}
