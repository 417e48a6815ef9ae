/* A monitor that is preempted inside a view costs the owner no call. Both run on one processor under SCHED_FIFO: the owner at a high
 * priority wakes every 200 us, exchanges a task and shows it; the monitor at a low priority views by a seat that only looks, again and
 * again, and is preempted wherever the owner wakes. Each call of the owner must be done. It ends with status 1 if one isn't, or if the
 * monitor was never found inside a view; and with status 77 where SCHED_FIFO is not allowed. */
#define _GNU_SOURCE
#include <pthread.h>
#include <sched.h>
#include <stdatomic.h>
#include <stdio.h>
#include <stdlib.h>
#include <string.h>
#include <time.h>

#include "zangjulf.h"

#define CYCLES 10000
#define TURN 200000L /* nanoseconds */
#define SECOND 1000000000L

static const char PROJECT[] = "[[slave]]\nstation = 1001\n[[slave.area]]\nsm = 0\ndir = \"out\"\nphys = 0x1000\ntask = 0\nassigned = [1]\n"
                              "pdo = [{ index = 1, entries = [[1, 64], [2, 64], [3, 64], [4, 64]] }]\n";
static struct zangjulf line;
static struct zangjulf_seat seat;
static atomic_bool is_viewing, is_over;
static unsigned long refused, inside, views, refused_views;
static uint64_t last_showing;

static void expect(bool fact, const char *what) {
    if (fact) return;
    printf("monitor: %s\n", what);
    exit(1);
}

/* One cycle of the owner; a call that isn't done is counted. */
static void cycle(void) {
    static const uint8_t tasks[1] = {0};
    static uint8_t frame[ZANGJULF_FRAME];
    struct zangjulf_outcome outcome;
    struct zangjulf_arrival arrival;
    struct zangjulf_taken taken;
    struct zangjulf_sent sent = {0};
    uint32_t epoch;
    refused += zangjulf_take_posts(&line, &taken) != ZANGJULF_DONE;
    refused += zangjulf_epoch(&line, &epoch) != ZANGJULF_DONE;
    refused += zangjulf_send(&line, tasks, 1, frame, sizeof frame, NULL, 0, &sent) != ZANGJULF_DONE;
    frame[26 + 32] = 2; /* the working counter of a slave that took 32 bytes of outputs */
    refused += zangjulf_arrive(&line, frame, sent.size, &outcome, 1, &arrival) != ZANGJULF_DONE;
    refused += zangjulf_show(&line) != ZANGJULF_DONE;
}

static void *owns(void *none) {
    struct timespec next;
    clock_gettime(CLOCK_MONOTONIC, &next);
    for (int i = 0; i < CYCLES; i++) {
        next.tv_nsec += TURN;
        if (next.tv_nsec >= SECOND) next.tv_nsec -= SECOND, next.tv_sec++;
        clock_nanosleep(CLOCK_MONOTONIC, TIMER_ABSTIME, &next, NULL);
        inside += atomic_load(&is_viewing);
        cycle();
    }
    atomic_store(&is_over, true);
    return none;
}

static void *watches(void *none) {
    uint8_t image[64];
    uint64_t serials[1];
    struct zangjulf_view view;
    while (!atomic_load(&is_over)) {
        atomic_store(&is_viewing, true);
        refused_views += zangjulf_seat_view(&seat, image, sizeof image, serials, 1, &view) != ZANGJULF_DONE;
        atomic_store(&is_viewing, false);
        expect(view.showing >= last_showing, "a view goes back");
        last_showing = view.showing;
        views++;
    }
    return none;
}

static void open_line(void) {
    struct zangjulf_options options = {sizeof options, 1};
    struct zangjulf_writes writes;
    struct zangjulf_outcome outcomes[2];
    struct zangjulf_arrival arrival;
    uint8_t frame[ZANGJULF_FRAME], task;
    expect(!zangjulf_open(&line, &options, (const uint8_t *)PROJECT, sizeof PROJECT - 1, &task), "the line isn't opened");
    expect(!zangjulf_look_open(&line, 0, 0, &seat), "the seat isn't opened");
    expect(!zangjulf_next_writes(&line, frame, sizeof frame, &writes), "no register writes");
    frame[26 + 8] = 1, frame[26 + 8 + 12 + 16] = 1;
    expect(!zangjulf_arrive(&line, frame, writes.size, outcomes, 2, &arrival) && arrival.kind == ZANGJULF_OF_BLOCKS, "register blocks aren't written");
}

/* A thread on the first processor that may be used, under SCHED_FIFO; false where that is not allowed. */
static bool started(pthread_t *thread, void *(*work)(void *), int priority) {
    struct sched_param param = {.sched_priority = priority};
    pthread_attr_t attributes;
    cpu_set_t may, one;
    int first = 0;
    sched_getaffinity(0, sizeof may, &may);
    while (!CPU_ISSET(first, &may)) first++;
    CPU_ZERO(&one);
    CPU_SET(first, &one);
    pthread_attr_init(&attributes);
    pthread_attr_setinheritsched(&attributes, PTHREAD_EXPLICIT_SCHED);
    pthread_attr_setschedpolicy(&attributes, SCHED_FIFO);
    pthread_attr_setschedparam(&attributes, &param);
    pthread_attr_setaffinity_np(&attributes, sizeof one, &one);
    return !pthread_create(thread, &attributes, work, NULL);
}

int main(void) {
    pthread_t owner, monitor;
    open_line();
    if (!started(&owner, owns, 20)) {
        printf("monitor: SCHED_FIFO is not allowed here: skipped\n");
        return 77;
    }
    expect(started(&monitor, watches, 10), "no thread for the monitor");
    pthread_join(owner, NULL);
    pthread_join(monitor, NULL);
    printf("monitor: %d cycles, %lu calls of the owner refused; %lu views, %lu refused; preempted inside a view %lu times\n", CYCLES, refused, views, refused_views, inside);
    expect(!zangjulf_close(&line) && !zangjulf_seat_close(&seat), "a handle isn't closed");
    return refused || refused_views || !inside;
}
