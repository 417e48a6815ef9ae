/* An owner, two tasks and a thread that only looks, four threads at full speed. In task 0 the owner posts a number and shows it, so many
 * times as the argument says; in each eighth turn the frame is sent, and comes back with the number as its inputs. The task views: each
 * image must be whole, of the showing that its number says, its inputs of the last eighth turn before its outputs. In task 1 the thread
 * posts numbers, and the owner takes the newest: images must say which post was taken last, and never go back. The fourth thread looks
 * at task 1: the outputs must be those of the post that was taken last. Each number is 512 bytes long. At the end the last number that was
 * shown is viewed, and the last one that was posted is put out. Then lines are closed by their owners while the tasks use and close
 * their seats. It ends with status 1 at the first image or answer that can't be. */
#include <pthread.h>
#include <stdatomic.h>
#include <stdio.h>
#include <stdlib.h>
#include <string.h>

#include "zangjulf.h"

#define EXPECT(fact) ((fact) ? (void)0 : fail(__LINE__, #fact))
#define WORDS 64
#define BYTES (8 * WORDS)
#define CLOSINGS 200

static void fail(int line, const char *fact) {
    printf("seat_threads.c:%d: not so: %s\n", line, fact);
    exit(1);
}

static struct zangjulf line;
#define SEATS 3 /* the third one only looks */
static struct zangjulf_seat seats[SEATS];
static atomic_bool is_over;

/* What a task's thread did. */
struct count {
    uint64_t views, images, posts;
    uint64_t number; /* the newest that it viewed, or posted */
};

/* A number's bytes: each word has it, times another odd factor. */
static void write_number(uint8_t *bytes, uint64_t number) {
    for (uint64_t i = 0; i < WORDS; i++) {
        uint64_t word = number * (2 * i + 1);
        memcpy(bytes + 8 * i, &word, 8);
    }
}

static uint64_t number_of(const uint8_t *bytes) {
    uint64_t number, word;
    memcpy(&number, bytes, 8);
    for (uint64_t i = 1; i < WORDS; i++) {
        memcpy(&word, bytes + 8 * i, 8);
        EXPECT(word == number * (2 * i + 1));
    }
    return number;
}

/* A slave for each task, with outputs and inputs of 512 bytes. */
static size_t write_project(char *text, size_t room) {
    size_t size = 0;
    for (unsigned task = 0; task < 2; task++)
        for (unsigned area = 0; area < 2; area++) {
            if (!area) size += (size_t)snprintf(text + size, room - size, "[[slave]]\nstation = %u\n", 1001 + task);
            size += (size_t)snprintf(text + size, room - size, "[[slave.area]]\nsm = %u\ndir = \"%s\"\nphys = 0x%u000\ntask = %u\nassigned = [1]\npdo = [{ index = 1, entries = [", area,
                                     area ? "in" : "out", 1 + area, task);
            for (unsigned i = 0; i < WORDS; i++) size += (size_t)snprintf(text + size, room - size, "[%u, 64],", 1 + i + WORDS * (area + 2 * task));
            size += (size_t)snprintf(text + size, room - size, "] }]\n");
        }
    return size;
}

static void program(void) {
    uint8_t frame[ZANGJULF_FRAME];
    struct zangjulf_write write;
    struct zangjulf_outcome outcome;
    struct zangjulf_arrival arrival;
    while (!zangjulf_next_write(&line, frame, sizeof frame, &write)) {
        frame[26 + frame[22]] = 1;
        EXPECT(zangjulf_arrive(&line, frame, write.size, &outcome, 1, &arrival) == ZANGJULF_DONE && outcome.kind == ZANGJULF_BLOCK_WRITTEN);
    }
}

/* Task 0 is sent, and its outputs come back as its inputs. */
static void exchange(void) {
    static uint8_t frame[ZANGJULF_FRAME];
    static const uint8_t task[1] = {0};
    struct zangjulf_outcome outcome;
    struct zangjulf_arrival arrival;
    struct zangjulf_sent sent;
    EXPECT(zangjulf_send(&line, task, 1, frame, sizeof frame, NULL, 0, &sent) == ZANGJULF_DONE);
    memcpy(frame + 26 + BYTES, frame + 26, BYTES);
    frame[26 + 2 * BYTES] = 3;
    EXPECT(zangjulf_arrive(&line, frame, sent.size, &outcome, 1, &arrival) == ZANGJULF_DONE && outcome.kind == ZANGJULF_INPUTS);
}

/* The seat's newest image, every second one in place, and the number of the outputs to begin with. */
static uint64_t view(struct zangjulf_seat *seat, struct count *count, bool has_inputs, struct zangjulf_view *view) {
    uint8_t copy[2 * BYTES], outputs[BYTES];
    const uint8_t *image = copy;
    uint64_t serial = 0;
    unsigned answer = count->views % 2 ? zangjulf_seat_view_in_place(seat, &image, &serial, 1, view) : zangjulf_seat_view(seat, copy, sizeof copy, &serial, 1, view);
    EXPECT(answer == ZANGJULF_DONE && view->size == sizeof copy && view->outputs == BYTES);
    EXPECT(zangjulf_seat_outputs(seat, outputs, sizeof outputs) == ZANGJULF_DONE);
    uint64_t number = number_of(outputs);
    EXPECT(view->has == has_inputs && view->state == (has_inputs ? ZANGJULF_COMPLETE : ZANGJULF_NO_DATA));
    /* eight register blocks are written before, each in a frame of its own: serials 0 to 7 */
    if (has_inputs) EXPECT(number_of(image + BYTES) == number / 8 * 8 && serial == number / 8 + 8 && view->first_serial == serial);
    count->views++;
    return number;
}

/* The first image is shown when the seat is opened, and the second one has number 0. */
static void *views(void *given) {
    struct count *count = given;
    struct zangjulf_view seen;
    while (!atomic_load_explicit(&is_over, memory_order_relaxed)) {
        uint64_t number = view(&seats[0], count, true, &seen);
        EXPECT(number >= count->number && seen.showing == number + 2);
        count->images += number > count->number;
        count->number = number;
    }
    return NULL;
}

/* The outputs to begin with are those of the thread's own last post. */
static void *posts(void *given) {
    struct count *count = given;
    struct zangjulf_view seen;
    uint8_t outputs[BYTES];
    uint64_t taken = 0, posted = 0;
    while (!atomic_load_explicit(&is_over, memory_order_relaxed)) {
        write_number(outputs, ++count->number);
        EXPECT(zangjulf_seat_post(&seats[1], 0, outputs, sizeof outputs, &posted) == ZANGJULF_DONE && posted == count->number);
        count->posts++;
        EXPECT(view(&seats[1], count, false, &seen) == posted);
        EXPECT(seen.taken >= taken && seen.taken <= posted && !seen.is_refused);
        count->images += seen.taken > taken;
        taken = seen.taken;
    }
    return NULL;
}

static void *looks(void *given) {
    struct count *count = given;
    struct zangjulf_view seen;
    uint64_t showing = 0;
    while (!atomic_load_explicit(&is_over, memory_order_relaxed)) {
        uint64_t number = view(&seats[2], count, false, &seen);
        EXPECT(number >= count->number && seen.showing >= showing && !seen.taken);
        count->images += seen.showing > showing;
        count->number = number, showing = seen.showing;
    }
    return NULL;
}

static void show(uint64_t number) {
    static uint8_t outputs[BYTES];
    struct zangjulf_taken taken;
    write_number(outputs, number);
    EXPECT(zangjulf_post(&line, 0, 0, outputs, sizeof outputs) == ZANGJULF_DONE);
    EXPECT(zangjulf_take_posts(&line, &taken) == ZANGJULF_DONE && !taken.refused && !(taken.accepted & ~2));
    if (number % 8 == 0) exchange();
    EXPECT(zangjulf_show(&line) == ZANGJULF_DONE);
}

static void open_line(void) {
    static char text[1 << 16];
    struct zangjulf_options options = {sizeof options, 1};
    struct count none = {0};
    struct zangjulf_view seen;
    uint8_t task;
    EXPECT(zangjulf_open(&line, &options, (const uint8_t *)text, write_project(text, sizeof text), &task) == ZANGJULF_DONE);
    program();
    for (uint8_t i = 0; i < 2; i++) EXPECT(zangjulf_seat_open(&line, i, &seats[i]) == ZANGJULF_DONE);
    EXPECT(zangjulf_look_open(&line, 0, 1, &seats[2]) == ZANGJULF_DONE);
    show(0);
    for (uint8_t i = 0; i < SEATS; i++) EXPECT(view(&seats[i], &none, !i, &seen) == 0 && seen.showing == 2);
}

/* A thread that uses its seat and closes it, whatever its owner does. Once an image says that the line is closed, posts find none. */
static void *leaves(void *given) {
    struct zangjulf_seat *seat = given;
    struct zangjulf_view seen;
    struct count count = {0};
    uint8_t outputs[BYTES] = {0}, says = ZANGJULF_LINE_OPEN;
    for (int i = 0; i < 20; i++) {
        uint64_t number = 0;
        view(seat, &count, seat == &seats[0], &seen);
        EXPECT(seen.line >= says && seen.line <= ZANGJULF_LINE_CLOSED);
        says = seen.line;
        unsigned wanted = seat == &seats[2] ? ZANGJULF_MISUSED : says == ZANGJULF_LINE_OPEN ? ZANGJULF_DONE : ZANGJULF_CLOSED;
        EXPECT(zangjulf_seat_post(seat, 0, outputs, sizeof outputs, &number) == wanted);
    }
    EXPECT(zangjulf_seat_close(seat) == ZANGJULF_DONE);
    return NULL;
}

/* The line is closed at the same time. */
static void close_at_once(void) {
    pthread_t threads[SEATS];
    struct zangjulf_taken taken;
    open_line();
    for (int i = 0; i < SEATS; i++) EXPECT(!pthread_create(&threads[i], NULL, leaves, &seats[i]));
    for (int i = 0; i < 10; i++) EXPECT(zangjulf_take_posts(&line, &taken) == ZANGJULF_DONE && zangjulf_show(&line) == ZANGJULF_DONE);
    EXPECT(zangjulf_close(&line) == ZANGJULF_DONE);
    for (int i = 0; i < SEATS; i++) EXPECT(!pthread_join(threads[i], NULL));
}

int main(int count, char **words) {
    static void *(*const work[SEATS])(void *) = {views, posts, looks};
    struct count counts[SEATS] = {{0}};
    struct zangjulf_view seen;
    pthread_t threads[SEATS];
    uint64_t shows = count == 2 ? strtoull(words[1], NULL, 10) : 0;
    EXPECT(shows > 0);
    open_line();
    for (int i = 0; i < SEATS; i++) EXPECT(!pthread_create(&threads[i], NULL, work[i], &counts[i]));
    for (uint64_t number = 1; number <= shows; number++) show(number);
    atomic_store(&is_over, true);
    for (int i = 0; i < SEATS; i++) EXPECT(!pthread_join(threads[i], NULL));
    EXPECT(view(&seats[0], &counts[0], true, &seen) == shows);
    show(shows);
    EXPECT(view(&seats[2], &counts[2], false, &seen) == counts[1].number);
    EXPECT(view(&seats[1], &counts[1], false, &seen) == counts[1].number && seen.taken == counts[1].number && seen.showing == shows + 3);
    printf("seat_threads: %llu shows; %llu views, %llu images; %llu posts, %llu of them seen as taken; %llu looks, %llu images\n", (unsigned long long)shows,
           (unsigned long long)counts[0].views, (unsigned long long)counts[0].images, (unsigned long long)counts[1].posts,
           (unsigned long long)counts[1].images, (unsigned long long)counts[2].views, (unsigned long long)counts[2].images);
    EXPECT(zangjulf_close(&line) == ZANGJULF_DONE);
    for (int i = 0; i < SEATS; i++) EXPECT(zangjulf_seat_close(&seats[i]) == ZANGJULF_DONE);
    for (int i = 0; i < CLOSINGS; i++) close_at_once();
    return !(counts[0].images && counts[1].posts && counts[2].images);
}
