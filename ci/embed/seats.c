/* Seats, in one thread: what each call answers, what is there after it, and what a caller may do wrong or unluckily: closed seats and
 * lines, slices that are too short, posts for another epoch, posts that replace one another, a task that gets another seat, seats that
 * only look. It is given the project of the tool changer, and ends with status 1 at the first answer that isn't the one in include/zangjulf.h. Growths are
 * refused where it is linked with --wrap=malloc, --wrap=realloc and --wrap=free, and WRAPPED is defined. */
#include <stdio.h>
#include <stdlib.h>
#include <string.h>

#ifdef WRAPPED
#include "growths.h"
#endif
#include "zangjulf.h"

#define EXPECT(fact) ((fact) ? (void)0 : fail(__LINE__, #fact))
#define OUTPUTS 14 /* of task 0; task 1 has an output and an input of a byte */
#define IMAGE 26
#define SLAVES 5

static void fail(int line, const char *fact) {
    printf("seats.c:%d: not so: %s\n", line, fact);
    exit(1);
}

static uint8_t text[1 << 16];
static size_t length;

/* A slice of its exact size; a sanitizer watches its end. */
static uint8_t *slice(size_t size) {
    uint8_t *bytes = malloc(size ? size : 1);
    memset(bytes, 0xaa, size);
    return bytes;
}

static bool is_untouched(const uint8_t *bytes, size_t size) {
    for (size_t i = 0; i < size; i++)
        if (bytes[i] != 0xaa) return false;
    return true;
}

static void open_line(struct zangjulf *line) {
    const struct zangjulf_options options = {sizeof options, 2};
    uint8_t task;
    EXPECT(zangjulf_open(line, &options, text, length, &task) == ZANGJULF_DONE);
}

/* The seat's newest image. */
static struct zangjulf_view viewed(struct zangjulf_seat *seat) {
    uint8_t data[IMAGE];
    struct zangjulf_view view;
    EXPECT(zangjulf_seat_view(seat, data, sizeof data, NULL, 0, &view) == ZANGJULF_DONE);
    return view;
}

static uint64_t post(struct zangjulf_seat *seat, uint32_t epoch, const uint8_t *bytes, size_t size) {
    uint64_t number = 0;
    EXPECT(zangjulf_seat_post(seat, epoch, bytes, size, &number) == ZANGJULF_DONE);
    return number;
}

/* The answer to a post that isn't made. */
static uint8_t refused_post(struct zangjulf_seat *seat, uint32_t epoch, const uint8_t *bytes, size_t size) {
    uint64_t number = 77;
    uint8_t answer = zangjulf_seat_post(seat, epoch, bytes, size, &number);
    EXPECT(answer && number == 77);
    return answer;
}

/* The owner takes posts: these tasks' are accepted, and those are refused. */
static void take(struct zangjulf *line, uint8_t accepted, uint8_t refused) {
    struct zangjulf_taken taken = {7, 7, {7}};
    EXPECT(zangjulf_take_posts(line, &taken) == ZANGJULF_DONE && taken.accepted == accepted && taken.refused == refused && !taken.reserved[0]);
}

/* The simulated slaves of the mandatory group and the gripper, as they are wired. */
static uint8_t memories[SLAVES][ZANGJULF_SLAVE_MEMORY];
static void start_slaves(void) {
    static const uint16_t stations[SLAVES] = {1001, 1002, 1003, 1004, 2001};
    for (int i = 0; i < SLAVES; i++) {
        EXPECT(zangjulf_slave_start(memories[i], sizeof memories[i], 0) == ZANGJULF_DONE);
        memcpy(&memories[i][0x10], &stations[i], 2);
    }
}

static void pass(uint8_t *frame, size_t size) {
    for (int i = 0; i < SLAVES; i++) EXPECT(zangjulf_slave_process(memories[i], sizeof memories[i], frame, size) == ZANGJULF_DONE);
}

static void write_all(struct zangjulf *line) {
    uint8_t frame[ZANGJULF_FRAME];
    struct zangjulf_outcome outcomes[ZANGJULF_OUTCOMES];
    struct zangjulf_arrival arrival;
    struct zangjulf_writes writes;
    while (!zangjulf_next_writes(line, frame, sizeof frame, &writes)) {
        pass(frame, writes.size);
        EXPECT(zangjulf_arrive(line, frame, writes.size, outcomes, ZANGJULF_OUTCOMES, &arrival) == ZANGJULF_DONE && arrival.kind == ZANGJULF_OF_BLOCKS);
    }
}

/* A task is sent, and what returns is handed in; the serial of its frame. */
static uint64_t exchange(struct zangjulf *line, uint8_t task) {
    uint8_t frame[ZANGJULF_FRAME];
    struct zangjulf_outcome outcomes[ZANGJULF_OUTCOMES];
    struct zangjulf_arrival arrival;
    struct zangjulf_sent sent;
    EXPECT(zangjulf_send(line, &task, 1, frame, sizeof frame, NULL, 0, &sent) == ZANGJULF_DONE && sent.frames == 1);
    pass(frame, sent.size);
    EXPECT(zangjulf_arrive(line, frame, sent.size, outcomes, ZANGJULF_OUTCOMES, &arrival) == ZANGJULF_DONE && outcomes[0].kind == ZANGJULF_INPUTS);
    return arrival.serial;
}

static void closed(void) {
    struct zangjulf line = {0};
    struct zangjulf_seat seat = {0};
    struct zangjulf_view view = {.showing = 7, .size = 7, .has = 7};
    struct zangjulf_taken taken = {7, 7, {7}};
    const uint8_t *image = &text[1];
    uint64_t serial = 7;
    uint8_t byte = 7;
    EXPECT(zangjulf_seat_open(&line, 8, &seat) == ZANGJULF_CLOSED && zangjulf_look_open(&line, 9, 8, &seat) == ZANGJULF_CLOSED && !seat.mark);
    EXPECT(zangjulf_show(&line) == ZANGJULF_CLOSED);
    EXPECT(zangjulf_take_posts(&line, &taken) == ZANGJULF_CLOSED && taken.accepted == 7 && taken.refused == 7);
    EXPECT(zangjulf_seat_view(&seat, &byte, 1, &serial, 1, &view) == ZANGJULF_CLOSED && byte == 7 && serial == 7);
    EXPECT(zangjulf_seat_view_in_place(&seat, &image, &serial, 1, &view) == ZANGJULF_CLOSED && image == &text[1] && serial == 7);
    EXPECT(view.showing == 7 && view.size == 7 && view.has == 7);
    EXPECT(zangjulf_seat_outputs(&seat, &byte, 1) == ZANGJULF_CLOSED && byte == 7);
    EXPECT(refused_post(&seat, 0, &byte, 1) == ZANGJULF_CLOSED && refused_post(&seat, 0, NULL, 0) == ZANGJULF_CLOSED);
    EXPECT(zangjulf_seat_close(&seat) == ZANGJULF_CLOSED && !seat.mark);
}

/* A handle that was never set to zeros is none, and an open one isn't opened again: both stay as they are. */
static void strange(void) {
    struct zangjulf line = {0};
    struct zangjulf_seat seat = {.mark = 0x5555555555555555}, before;
    struct zangjulf_view view;
    const uint8_t *image = &text[1];
    uint8_t byte = 7;
    open_line(&line);
    EXPECT(zangjulf_seat_open(&line, 0, &seat) == ZANGJULF_MISUSED && zangjulf_look_open(&line, 0, 0, &seat) == ZANGJULF_MISUSED);
    EXPECT(zangjulf_seat_view(&seat, NULL, 0, NULL, 0, &view) == ZANGJULF_MISUSED && zangjulf_seat_outputs(&seat, &byte, 1) == ZANGJULF_MISUSED);
    EXPECT(zangjulf_seat_view_in_place(&seat, &image, NULL, 0, &view) == ZANGJULF_MISUSED && image == &text[1]);
    EXPECT(refused_post(&seat, 0, &byte, 1) == ZANGJULF_MISUSED && zangjulf_seat_close(&seat) == ZANGJULF_MISUSED && seat.mark == 0x5555555555555555);
    seat.mark = 0;
    EXPECT(zangjulf_seat_open(&line, 0, &seat) == ZANGJULF_DONE && seat.mark);
    before = seat;
    EXPECT(zangjulf_seat_open(&line, 1, &seat) == ZANGJULF_MISUSED && zangjulf_look_open(&line, 0, 1, &seat) == ZANGJULF_MISUSED);
    EXPECT(seat.mark == before.mark && seat.at == before.at && viewed(&seat).outputs == OUTPUTS);
    EXPECT(zangjulf_close(&line) == ZANGJULF_DONE && zangjulf_seat_close(&seat) == ZANGJULF_DONE && !seat.mark);
}

/* A seat has a first image from its opening on. No seat is opened of a ninth task, nor with a number that wasn't asked for. */
static void first_images(void) {
    struct zangjulf line = {0};
    struct zangjulf_seat seat = {0}, other = {0}, look = {0};
    struct zangjulf_view view;
    uint8_t outputs[OUTPUTS] = {0};
    open_line(&line);
    EXPECT(zangjulf_show(&line) == ZANGJULF_DONE);
    take(&line, 0, 0);
    EXPECT(zangjulf_seat_open(&line, 8, &seat) == ZANGJULF_NO_SUCH_TASK && zangjulf_look_open(&line, 0, 8, &seat) == ZANGJULF_NO_SUCH_TASK && !seat.mark);
    EXPECT(zangjulf_look_open(&line, 2, 0, &seat) == ZANGJULF_MISUSED && !seat.mark);
    EXPECT(zangjulf_seat_open(&line, 0, &seat) == ZANGJULF_DONE && zangjulf_seat_open(&line, 7, &other) == ZANGJULF_DONE);
    EXPECT(zangjulf_look_open(&line, 1, 0, &look) == ZANGJULF_DONE);
    /* the seat has it before the first view */
    EXPECT(zangjulf_seat_outputs(&seat, outputs, OUTPUTS - 1) == ZANGJULF_ROOM && zangjulf_seat_outputs(&seat, outputs, OUTPUTS) == ZANGJULF_DONE);
    EXPECT(refused_post(&seat, 0, NULL, 0) == ZANGJULF_POST_LENGTH);
    view = viewed(&seat);
    EXPECT(view.showing == 1 && !view.first_serial && !view.taken && !view.epoch && !view.task_epoch && view.size == IMAGE && view.outputs == OUTPUTS);
    EXPECT(view.datagrams == 1 && !view.has && view.state == ZANGJULF_NO_DATA && view.line == ZANGJULF_LINE_OPEN && !view.is_refused && !view.reserved);
    view = viewed(&other);
    EXPECT(view.showing == 1 && !view.size && !view.outputs && !view.datagrams && view.state == ZANGJULF_COMPLETE);
    EXPECT(viewed(&look).showing == 1 && viewed(&look).showing == 1);
    EXPECT(refused_post(&seat, 0, NULL, 0) == ZANGJULF_POST_LENGTH && refused_post(&seat, 1, outputs, OUTPUTS) == ZANGJULF_STALE_POST);
    EXPECT(refused_post(&look, 0, outputs, OUTPUTS) == ZANGJULF_MISUSED);
    EXPECT(post(&seat, 0, outputs, OUTPUTS) == 1 && post(&other, 0, NULL, 0) == 1);
    take(&line, 0x81, 0);
    EXPECT(zangjulf_close(&line) == ZANGJULF_DONE && zangjulf_seat_close(&seat) == ZANGJULF_DONE);
    EXPECT(zangjulf_seat_close(&other) == ZANGJULF_DONE && zangjulf_seat_close(&look) == ZANGJULF_DONE);
}

/* An image that was shown stays with the seat until it views again; one that wasn't viewed is passed over. Data, outputs and ages are
 * those that the line reads. */
static void images(struct zangjulf *line, struct zangjulf_seat *seat) {
    uint8_t *data = slice(IMAGE), *whole = slice(IMAGE + 1), *outputs = slice(OUTPUTS), posted[OUTPUTS];
    struct zangjulf_view view = {.size = 7};
    struct zangjulf_image image;
    uint64_t serials[2] = {7, 7}, read[1];
    EXPECT(zangjulf_show(line) == ZANGJULF_DONE);
    EXPECT(zangjulf_seat_view(seat, data, IMAGE, serials, 2, &view) == ZANGJULF_DONE && view.showing == 2 && view.size == IMAGE && view.outputs == OUTPUTS && !view.has);
    EXPECT(!serials[0] && serials[1] == 7 && !data[0] && !data[IMAGE - 1]);
    for (uint8_t i = 0; i < OUTPUTS; i++) posted[i] = (uint8_t)(i + 1);
    posted[7] = 0; /* a gap: nothing is sent of it */
    EXPECT(zangjulf_post(line, 0, 0, posted, OUTPUTS) == ZANGJULF_DONE);
    uint64_t first = exchange(line, 0);
    EXPECT(zangjulf_show(line) == ZANGJULF_DONE);
    for (int i = 0; i < 6; i++) memories[1][0x1180 + i] = (uint8_t)(0x20 + i);
    uint64_t second = exchange(line, 0);
    /* what came after the showing isn't seen; the outputs are as they were at it */
    EXPECT(zangjulf_seat_outputs(seat, outputs, OUTPUTS) == ZANGJULF_DONE && !outputs[0] && !outputs[13]);
    EXPECT(zangjulf_seat_view(seat, data, IMAGE, serials, 1, &view) == ZANGJULF_DONE && view.has == 1 && serials[0] == first && !data[OUTPUTS]);
    EXPECT(view.showing == 3 && view.first_serial == first && view.state == ZANGJULF_COMPLETE);
    EXPECT(zangjulf_seat_outputs(seat, outputs, OUTPUTS) == ZANGJULF_DONE && !memcmp(outputs, posted, OUTPUTS));
    EXPECT(zangjulf_show(line) == ZANGJULF_DONE && zangjulf_show(line) == ZANGJULF_DONE);
    memset(whole, 0xaa, IMAGE + 1), view.size = 7, serials[0] = 7;
    EXPECT(zangjulf_seat_view(seat, whole, IMAGE - 1, serials, 1, &view) == ZANGJULF_ROOM && is_untouched(whole, IMAGE + 1) && view.size == 7 && serials[0] == 7);
    EXPECT(zangjulf_seat_view(seat, whole, IMAGE + 1, serials, 0, &view) == ZANGJULF_DONE && view.size == IMAGE && whole[IMAGE] == 0xaa && serials[0] == 7);
    EXPECT(zangjulf_seat_view(seat, data, IMAGE, serials, 1, &view) == ZANGJULF_DONE && serials[0] == second && data[OUTPUTS] == 0x20 && !memcmp(data, whole, IMAGE));
    EXPECT(view.showing == 5 && view.first_serial == second);
    EXPECT(zangjulf_read(line, 0, whole, IMAGE, read, 1, &image) == ZANGJULF_DONE && !memcmp(data, whole, IMAGE) && read[0] == second && image.has == view.has);
    memset(outputs, 0xaa, OUTPUTS);
    EXPECT(zangjulf_seat_outputs(seat, outputs, OUTPUTS - 1) == ZANGJULF_ROOM && is_untouched(outputs, OUTPUTS));
    free(data), free(whole), free(outputs);
}

/* An image that is lent in place equals its copy, and stays as it is while more are shown, posted and taken, until the next view. */
static void in_place(struct zangjulf *line, struct zangjulf_seat *seat) {
    uint8_t *data = slice(IMAGE), *outputs = slice(OUTPUTS);
    const uint8_t *lent = NULL, *next = NULL;
    struct zangjulf_view view, copied;
    uint64_t serials[2] = {7, 7}, serial = 7;
    memories[1][0x1180] = 0x30;
    uint64_t first = exchange(line, 0);
    EXPECT(zangjulf_show(line) == ZANGJULF_DONE);
    EXPECT(zangjulf_seat_view_in_place(seat, &lent, serials, 2, &view) == ZANGJULF_DONE && view.size == IMAGE && view.has == 1 && lent[OUTPUTS] == 0x30);
    EXPECT(serials[0] == first && serials[1] == 7 && view.first_serial == first && view.state == ZANGJULF_COMPLETE && !view.reserved);
    EXPECT(zangjulf_seat_view(seat, data, IMAGE, &serial, 1, &copied) == ZANGJULF_DONE && serial == first && !memcmp(&copied, &view, sizeof view));
    /* none was newer, so that the image is lent again where it was */
    EXPECT(zangjulf_seat_view_in_place(seat, &next, NULL, 0, &copied) == ZANGJULF_DONE && next == lent && !memcmp(&copied, &view, sizeof view));
    for (int i = 0; i < 5; i++) {
        memories[1][0x1180] = (uint8_t)(0x40 + i);
        exchange(line, 0);
        EXPECT(zangjulf_show(line) == ZANGJULF_DONE && zangjulf_seat_outputs(seat, outputs, OUTPUTS) == ZANGJULF_DONE && !memcmp(lent, data, IMAGE));
        EXPECT(refused_post(seat, 9, outputs, OUTPUTS) == ZANGJULF_STALE_POST && !memcmp(lent, data, IMAGE));
    }
    EXPECT(zangjulf_seat_view_in_place(seat, &next, &serial, 0, &copied) == ZANGJULF_DONE && next != lent && next[OUTPUTS] == 0x44 && serial == first);
    EXPECT(copied.showing == view.showing + 5 && copied.size == IMAGE);
    free(data), free(outputs);
}

/* A frame that is lost leaves the task's data, and the image says that they are not of the last sending. */
static void states(struct zangjulf *line, struct zangjulf_seat *seat) {
    static const uint8_t tasks[1] = {0};
    uint8_t frame[ZANGJULF_FRAME];
    struct zangjulf_sent sent;
    struct zangjulf_view view;
    exchange(line, 0);
    EXPECT(zangjulf_send(line, tasks, 1, frame, sizeof frame, NULL, 0, &sent) == ZANGJULF_DONE && zangjulf_show(line) == ZANGJULF_DONE);
    view = viewed(seat);
    EXPECT(view.has == 1 && view.state == ZANGJULF_NO_DATA && view.first_serial == sent.first_serial);
    exchange(line, 0);
    EXPECT(zangjulf_show(line) == ZANGJULF_DONE && viewed(seat).state == ZANGJULF_COMPLETE);
}

/* The newest post is taken, whatever waited before it; images say which one it was. A task that changes one byte in each of two posts loses
 * neither: the outputs to begin with are those of its own last post. */
static void posts(struct zangjulf *line, struct zangjulf_seat *seat, struct zangjulf_seat *second) {
    uint8_t outputs[OUTPUTS], *out = slice(OUTPUTS), byte = 3;
    struct zangjulf_view view = viewed(second);
    EXPECT(view.size == 2 && view.outputs == 1 && post(second, 0, &byte, 1) == 1);
    EXPECT(zangjulf_seat_outputs(seat, outputs, OUTPUTS) == ZANGJULF_DONE);
    EXPECT(refused_post(seat, 1, outputs, OUTPUTS - 1) == ZANGJULF_STALE_POST && refused_post(seat, 0, outputs, OUTPUTS - 1) == ZANGJULF_POST_LENGTH);
    EXPECT(refused_post(seat, 0, NULL, 0) == ZANGJULF_POST_LENGTH);
    for (uint8_t i = 1; i <= 9; i++) outputs[0] = i, EXPECT(post(seat, 0, outputs, OUTPUTS) == i);
    EXPECT(zangjulf_show(line) == ZANGJULF_DONE && !viewed(seat).taken);
    EXPECT(zangjulf_seat_outputs(seat, out, OUTPUTS) == ZANGJULF_DONE && out[0] == 9);
    out[1] = 77;
    EXPECT(post(seat, 0, out, OUTPUTS) == 10);
    take(line, 3, 0);
    take(line, 0, 0);
    EXPECT(zangjulf_show(line) == ZANGJULF_DONE && zangjulf_seat_view(seat, out, OUTPUTS, NULL, 0, &view) == ZANGJULF_ROOM);
    EXPECT(zangjulf_seat_outputs(seat, out, OUTPUTS) == ZANGJULF_DONE && out[0] == 9 && out[1] == 77 && !memcmp(out + 2, outputs + 2, OUTPUTS - 2));
    view = viewed(seat);
    EXPECT(view.taken == 10 && !view.is_refused && viewed(second).taken == 1);
    /* what the owner posts itself isn't the seat's own post */
    memset(out, 5, OUTPUTS);
    EXPECT(zangjulf_post(line, 0, 0, out, OUTPUTS) == ZANGJULF_DONE && zangjulf_show(line) == ZANGJULF_DONE && viewed(seat).taken == 10);
    EXPECT(zangjulf_seat_outputs(seat, outputs, OUTPUTS) == ZANGJULF_DONE && outputs[0] == 9);
    EXPECT(post(seat, 0, outputs, OUTPUTS) == 11);
    take(line, 1, 0);
    free(out);
}

/* The gripper comes in task 1: the first seat's post of before is accepted, the second one's is refused, and the first seat goes on with its
 * data, for both epochs. */
static void edit_of_the_other(struct zangjulf *line, struct zangjulf_seat *seat, struct zangjulf_seat *second) {
    uint8_t outputs[OUTPUTS], data[IMAGE], byte = 1;
    struct zangjulf_cost cost;
    struct zangjulf_view view;
    EXPECT(zangjulf_seat_outputs(seat, outputs, OUTPUTS) == ZANGJULF_DONE);
    outputs[0] = 99;
    EXPECT(post(seat, 0, outputs, OUTPUTS) == 12);
    EXPECT(zangjulf_connect(line, 100, false, &cost) == ZANGJULF_DONE && cost.epoch == 1);
    EXPECT(post(second, 0, &byte, 1) == 2);
    take(line, 1, 2);
    write_all(line);
    EXPECT(zangjulf_show(line) == ZANGJULF_DONE);
    EXPECT(refused_post(seat, 1, outputs, OUTPUTS) == ZANGJULF_STALE_POST);
    view = viewed(seat);
    EXPECT(view.epoch == 1 && !view.task_epoch && view.has == 1 && view.state == ZANGJULF_COMPLETE && view.taken == 12 && !view.is_refused);
    EXPECT(zangjulf_seat_view(second, data, sizeof data, NULL, 0, &view) == ZANGJULF_DONE && view.epoch == 1 && view.task_epoch == 1 && !view.has);
    EXPECT(view.taken == 2 && view.is_refused == 1 && view.state == ZANGJULF_NO_DATA);
    /* the second seat's own post is of before the edit: it begins with the outputs of the image, where the machine's output is 3 still */
    EXPECT(zangjulf_seat_outputs(second, data, view.outputs) == ZANGJULF_DONE && data[0] == 3);
    EXPECT(zangjulf_seat_outputs(seat, outputs, OUTPUTS) == ZANGJULF_DONE && outputs[0] == 99);
    outputs[0] = 98;
    EXPECT(refused_post(seat, 2, outputs, OUTPUTS) == ZANGJULF_STALE_POST && refused_post(second, 0, data, view.outputs) == ZANGJULF_STALE_POST);
    EXPECT(post(seat, 0, outputs, OUTPUTS) == 13 && post(seat, 1, outputs, OUTPUTS) == 14);
    take(line, 1, 0);
}

/* PDOs of axis Y change their order, and so places in task 0: what was posted before is refused, and the seat posts again once it has
 * viewed the new image. */
static void epochs(struct zangjulf *line, struct zangjulf_seat *seat) {
    const uint16_t pdos[2] = {0x1600, 0x1601};
    uint8_t outputs[OUTPUTS];
    struct zangjulf_cost cost;
    struct zangjulf_view view;
    EXPECT(zangjulf_seat_outputs(seat, outputs, OUTPUTS) == ZANGJULF_DONE);
    outputs[0] = 97;
    EXPECT(post(seat, 1, outputs, OUTPUTS) == 15);
    EXPECT(zangjulf_remap(line, 1003, 0, pdos, 2, false, &cost) == ZANGJULF_DONE && cost.epoch == 2);
    EXPECT(post(seat, 0, outputs, OUTPUTS) == 16);
    take(line, 0, 1);
    EXPECT(zangjulf_show(line) == ZANGJULF_DONE);
    view = viewed(seat);
    EXPECT(view.epoch == 2 && view.task_epoch == 2 && !view.has && view.taken == 16 && view.is_refused == 1);
    EXPECT(zangjulf_seat_outputs(seat, outputs, OUTPUTS) == ZANGJULF_DONE && outputs[0] == 98);
    EXPECT(refused_post(seat, 1, outputs, OUTPUTS) == ZANGJULF_STALE_POST && post(seat, 2, outputs, OUTPUTS) == 17);
    take(line, 1, 0);
}

/* A task's new seat takes the place of its former one, which is shown a last image and posts no more; a closed seat's post is taken. */
static void replaced(struct zangjulf *line, struct zangjulf_seat *seat) {
    struct zangjulf_seat next = {0};
    struct zangjulf_view view;
    uint8_t outputs[OUTPUTS];
    EXPECT(zangjulf_seat_outputs(seat, outputs, OUTPUTS) == ZANGJULF_DONE);
    EXPECT(post(seat, 2, outputs, OUTPUTS) == 18);
    uint64_t showing = viewed(seat).showing;
    EXPECT(zangjulf_seat_open(line, 0, &next) == ZANGJULF_DONE);
    take(line, 0, 0);
    EXPECT(zangjulf_show(line) == ZANGJULF_DONE);
    /* it doesn't know yet: its post is dropped */
    EXPECT(post(seat, 2, outputs, OUTPUTS) == 19);
    take(line, 0, 0);
    view = viewed(seat);
    EXPECT(view.showing == showing + 1 && view.line == ZANGJULF_SEAT_REPLACED && view.epoch == 2 && !view.has && view.taken == 17);
    EXPECT(refused_post(seat, 2, outputs, OUTPUTS) == ZANGJULF_CLOSED);
    view = viewed(&next);
    EXPECT(view.showing == 2 && view.line == ZANGJULF_LINE_OPEN && view.epoch == 2 && view.outputs == OUTPUTS && !view.taken);
    outputs[0] = 55;
    EXPECT(post(&next, 2, outputs, OUTPUTS) == 1);
    EXPECT(zangjulf_seat_close(&next) == ZANGJULF_DONE && !next.mark && refused_post(&next, 2, outputs, OUTPUTS) == ZANGJULF_CLOSED);
    EXPECT(zangjulf_show(line) == ZANGJULF_DONE);
    take(line, 1, 0);
    /* closed, and opened again in its own place */
    EXPECT(zangjulf_seat_close(seat) == ZANGJULF_DONE && zangjulf_seat_open(line, 0, seat) == ZANGJULF_DONE);
    EXPECT(viewed(seat).showing == 1 && zangjulf_seat_outputs(seat, outputs, OUTPUTS) == ZANGJULF_DONE && outputs[0] == 55);
}

/* Seats that only look: several of a task, each with its number; a number that is taken again shows its former seat a last image. */
static void lookers(struct zangjulf *line) {
    struct zangjulf_seat first = {0}, second = {0}, again = {0};
    struct zangjulf_view view;
    uint8_t outputs[OUTPUTS];
    EXPECT(zangjulf_look_open(line, 0, 0, &first) == ZANGJULF_DONE && zangjulf_look_open(line, 1, 0, &second) == ZANGJULF_DONE);
    exchange(line, 0);
    EXPECT(zangjulf_show(line) == ZANGJULF_DONE);
    view = viewed(&second);
    EXPECT(view.showing == 2 && view.has == 1 && view.state == ZANGJULF_COMPLETE && !view.taken && view.line == ZANGJULF_LINE_OPEN);
    EXPECT(zangjulf_seat_outputs(&second, outputs, OUTPUTS) == ZANGJULF_DONE && outputs[0] == 55);
    EXPECT(refused_post(&second, 2, outputs, OUTPUTS) == ZANGJULF_MISUSED);
    EXPECT(zangjulf_look_open(line, 0, 1, &again) == ZANGJULF_DONE && viewed(&first).line == ZANGJULF_SEAT_REPLACED && viewed(&first).showing == 3);
    EXPECT(viewed(&second).line == ZANGJULF_LINE_OPEN && viewed(&again).size != IMAGE);
    EXPECT(refused_post(&first, 2, outputs, OUTPUTS) == ZANGJULF_MISUSED);
    EXPECT(zangjulf_seat_close(&first) == ZANGJULF_DONE && zangjulf_seat_close(&second) == ZANGJULF_DONE && zangjulf_seat_close(&again) == ZANGJULF_DONE);
    EXPECT(zangjulf_show(line) == ZANGJULF_DONE);
}

/* A seat whose line is closed views a last image that says so, and posts no more; a line that is opened in its place is another one. */
static void left_alone(struct zangjulf *line, struct zangjulf_seat *seat, struct zangjulf_seat *second) {
    struct zangjulf_view view;
    uint8_t outputs[OUTPUTS], byte = 1;
    EXPECT(zangjulf_seat_outputs(seat, outputs, OUTPUTS) == ZANGJULF_DONE);
    uint64_t showing = viewed(seat).showing;
    uint32_t epoch = viewed(second).epoch;
    EXPECT(zangjulf_close(line) == ZANGJULF_DONE);
    open_line(line);
    EXPECT(zangjulf_show(line) == ZANGJULF_DONE);
    view = viewed(seat);
    EXPECT(view.line == ZANGJULF_LINE_CLOSED && view.showing == showing + 1 && view.epoch == 2 && view.size == IMAGE && view.has == 1);
    EXPECT(refused_post(seat, 2, outputs, OUTPUTS) == ZANGJULF_CLOSED && viewed(seat).showing == showing + 1);
    EXPECT(zangjulf_close(line) == ZANGJULF_DONE);
    EXPECT(viewed(second).line == ZANGJULF_LINE_CLOSED && refused_post(second, epoch, &byte, 1) == ZANGJULF_CLOSED);
    EXPECT(zangjulf_show(line) == ZANGJULF_CLOSED && zangjulf_seat_open(line, 0, &(struct zangjulf_seat){0}) == ZANGJULF_CLOSED);
}

static void of_a_line(void) {
    struct zangjulf line = {0};
    struct zangjulf_seat seat = {0}, second = {0};
    open_line(&line);
    start_slaves();
    write_all(&line);
    EXPECT(zangjulf_seat_open(&line, 0, &seat) == ZANGJULF_DONE && zangjulf_seat_open(&line, 1, &second) == ZANGJULF_DONE);
    images(&line, &seat);
    in_place(&line, &seat);
    states(&line, &seat);
    posts(&line, &seat, &second);
    edit_of_the_other(&line, &seat, &second);
    epochs(&line, &seat);
    write_all(&line);
    replaced(&line, &seat);
    lookers(&line);
    left_alone(&line, &seat, &second);
    EXPECT(zangjulf_seat_close(&seat) == ZANGJULF_DONE && zangjulf_seat_close(&second) == ZANGJULF_DONE && zangjulf_seat_close(&second) == ZANGJULF_CLOSED);
}

#ifdef WRAPPED
/* Each growth of the opening of a seat refused in turn: line and seat as they were, and nothing more is live. */
static void refused_openings(struct zangjulf *line, bool only_looks) {
    struct zangjulf_seat seat = {0}, held = {0};
    struct zangjulf_taken taken;
    uint8_t outputs[OUTPUTS] = {0};
    long growths = 0;
    EXPECT(zangjulf_seat_open(line, 0, &held) == ZANGJULF_DONE);
    long opened = live;
    for (bool is_spent = true; is_spent; growths++) {
        left = growths;
        unsigned number = only_looks ? zangjulf_look_open(line, 0, 0, &seat) : zangjulf_seat_open(line, 0, &seat);
        is_spent = left < 0;
        left = -1;
        EXPECT(number == (is_spent ? ZANGJULF_MEMORY : ZANGJULF_DONE) && !seat.mark == is_spent);
        EXPECT(!is_spent || (live == opened && viewed(&held).line == ZANGJULF_LINE_OPEN));
    }
    EXPECT(growths > 3);
    /* seats of a line, and calls with them, take no memory */
    left = 0;
    EXPECT(zangjulf_show(line) == ZANGJULF_DONE && viewed(&seat).showing == 2);
    if (!only_looks) EXPECT(post(&seat, 0, outputs, OUTPUTS) == 1 && zangjulf_take_posts(line, &taken) == ZANGJULF_DONE && taken.accepted == 1);
    EXPECT(left == 0);
    left = -1;
    EXPECT(zangjulf_seat_close(&seat) == ZANGJULF_DONE && zangjulf_seat_close(&held) == ZANGJULF_DONE);
}

static void refused_seats(void) {
    struct zangjulf line = {0};
    long before = live;
    open_line(&line);
    refused_openings(&line, false);
    refused_openings(&line, true);
    EXPECT(zangjulf_close(&line) == ZANGJULF_DONE && live == before);
}
#endif

int main(int count, char **words) {
    FILE *in = count == 2 ? fopen(words[1], "rb") : NULL;
    if (!in) return 2;
    length = fread(text, 1, sizeof text, in);
    fclose(in);
    closed();
    strange();
    first_images();
    of_a_line();
#ifdef WRAPPED
    refused_seats();
#endif
    printf("seats: all as told\n");
    return 0;
}
