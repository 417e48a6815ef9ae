/* A thread for each task, beside the owner of the line: on the wire of `wire.c`, for so many cycles at so many a second. The owner
 * takes what the tasks posted, sends them, hands in what returns and shows it. The motion task looks and posts in each cycle, the
 * task of the machine's inputs and outputs in each fourth one: at 1,000 cycles a second these are tasks of 1 and 4 ms. None of the
 * three waits for another. Meanwhile the gripper comes and goes (`tool.c`).
 *
 * Each slave answers with what was put out to it in the frame before. So each image that a task views must be whole: outputs
 * and inputs are each of one posting, and neither ever goes back. The gripper changes neither task: each view has data, and no post
 * is refused. A post takes the place of one that waits. At the end the last post is followed to its input. The memory of the process is
 * printed after a tenth of the cycles and at the end, and doesn't grow. If no namespace can be made it says so, and ends with status 77.
 *
 *     tasks PROJECT CYCLES CYCLES_A_SECOND [CAPTURE]
 *
 * PROJECT is examples/own_tasks.toml. */
#include <pthread.h>
#include <stdatomic.h>
#include <stdio.h>
#include <stdlib.h>
#include <string.h>
#include <unistd.h>

#include "tool.h"
#include "wire.h"

#define MOTION 0 /* outputs of 14 bytes, inputs of 12 */
#define MACHINE 1 /* an output of 4 bits, an input of 3 */
#define OUTPUTS 14
#define INPUTS 12
#define MOST_GROWTH 128 /* KiB: the system counts memory in pieces */

/* A task's thread: its seat, its turn in nanoseconds, what it viewed last, and what it did. */
struct worker {
    const char *name;
    struct zangjulf_seat seat;
    void (*step)(struct worker *worker);
    long turn;
    uint8_t image[ZANGJULF_IMAGE], outputs[ZANGJULF_IMAGE];
    struct zangjulf_view view;
    uint64_t serial;
    uint32_t posted, read;
    unsigned long views, images, posts;
    long longest_step;
};

static struct tool tool;
static atomic_bool is_over;
static long start;

static void fail(const struct worker *worker, const char *what) {
    printf("tasks: %s, view %lu of epoch %u: ", worker->name, worker->views, worker->view.epoch);
    wire_fail(what);
}

/* The number's bytes in another factor for every four: so all bytes of a posting know its number. Byte 7 is a gap. */
static void write_number(uint8_t *bytes, uint32_t number) {
    for (int i = 0; i < OUTPUTS; i++) bytes[i] = (uint8_t)((number >> i % 4 * 8) * (2 * (uint32_t)(i / 4) + 1));
    bytes[7] = 0;
}

/* The number of a posting, by its first bytes: all must be of it. */
static uint32_t number_of(const struct worker *worker, const uint8_t *bytes, size_t count) {
    uint8_t whole[OUTPUTS];
    uint32_t number = bytes[0] | (uint32_t)bytes[1] << 8 | (uint32_t)bytes[2] << 16 | (uint32_t)bytes[3] << 24;
    write_number(whole, number);
    if (memcmp(bytes, whole, count)) fail(worker, "an image is torn");
    return number;
}

/* Takes the newest image, and the outputs that were shown with it. Epochs and serials never go back, and the data stay over edits. */
static void view(struct worker *worker) {
    uint64_t serial = 0;
    uint32_t epoch = worker->view.epoch;
    tool_expect(zangjulf_seat_view(&worker->seat, worker->image, sizeof worker->image, &serial, 1, &worker->view), "a view");
    tool_expect(zangjulf_seat_outputs(&worker->seat, worker->outputs, sizeof worker->outputs), "the outputs");
    if (worker->view.has != 1 || worker->view.task_epoch) fail(worker, "a view has no data, or the task was changed");
    if (worker->view.epoch < epoch || serial < worker->serial) fail(worker, "a view goes back");
    worker->views++;
    worker->images += worker->view.epoch != epoch || serial != worker->serial;
    worker->serial = serial;
}

static void post(struct worker *worker) {
    uint64_t number;
    tool_expect(zangjulf_seat_post(&worker->seat, worker->view.epoch, worker->outputs, worker->view.outputs, &number), "a post");
    if (number != ++worker->posts || worker->view.taken >= number || worker->view.is_refused) fail(worker, "a post has another number, or was refused");
}

/* Each post has the next number, so what is read only rises. */
static void step_motion(struct worker *worker) {
    view(worker);
    if (worker->view.size != OUTPUTS + INPUTS || worker->view.outputs != OUTPUTS) fail(worker, "an image has another size");
    uint32_t read = number_of(worker, worker->image + OUTPUTS, INPUTS);
    if (number_of(worker, worker->outputs, OUTPUTS) != worker->posted) fail(worker, "the outputs to begin with are not of the last post");
    if (read < worker->read || worker->view.taken < read) fail(worker, "an input goes back, or comes before its post was taken");
    worker->read = read;
    write_number(worker->outputs, ++worker->posted);
    post(worker);
}

/* Counts in its four bits, once the input has answered the last number: it changes them in the outputs to begin with, and posts the
 * whole. So the input is that number or the one before. */
static void step_machine(struct worker *worker) {
    view(worker);
    if (worker->view.size != 2 || worker->view.outputs != 1) fail(worker, "an image has another size");
    unsigned missing = (worker->outputs[0] - worker->image[1]) & 7u;
    if (missing > 1) fail(worker, "an input isn't of the outputs before");
    if (!missing) worker->outputs[0] = (worker->outputs[0] + 1) & 15, worker->read++;
    post(worker);
}

static void *work(void *given) {
    struct worker *worker = given;
    for (long turn = 0; !atomic_load(&is_over); turn++) {
        wire_wait(start + turn * worker->turn);
        long began = wire_now();
        worker->step(worker);
        long took = wire_now() - began;
        if (took > worker->longest_step) worker->longest_step = took;
    }
    return NULL;
}

/* The owner takes what was posted, sends the motion task, in each fourth cycle all ready tasks, shows what returned, and writes the
 * register blocks that are owed. */
static void cycle(unsigned long number) {
    static uint8_t frames[ZANGJULF_FRAMES];
    const uint8_t tasks[] = {MOTION, MACHINE, GRIPPER_TASK};
    struct zangjulf_outcome outcomes[ZANGJULF_OUTCOMES];
    struct zangjulf_arrival arrival;
    struct zangjulf_taken taken;
    tool_expect(zangjulf_take_posts(&tool.line, &taken), "posts are taken");
    if (taken.refused) wire_fail("a post is refused");
    size_t size = tool_send(&tool, tasks, number % 4 ? 1 : sizeof tasks, frames, sizeof frames);
    tool_pass(&tool, frames, size, outcomes, &arrival);
    if (arrival.kind != ZANGJULF_OF_TASKS || outcomes[0].task != MOTION) wire_fail("the motion task isn't sent");
    for (size_t i = 0; i < arrival.datagrams; i++)
        if (outcomes[i].kind != ZANGJULF_INPUTS) wire_fail("a wrong counter");
    tool_expect(zangjulf_show(&tool.line), "an image is shown");
    tool_write(&tool);
}

/* The memory that the process has, in KiB. */
static long resident(void) {
    long whole = 0, pages = 0;
    FILE *file = fopen("/proc/self/statm", "r");
    if (!file || fscanf(file, "%ld %ld", &whole, &pages) != 2) wire_fail("the process has no memory");
    fclose(file);
    return pages * (sysconf(_SC_PAGESIZE) / 1024);
}

/* All cycles: the memory after a tenth of them. */
static long run(unsigned long cycles, unsigned long rate) {
    long early = 0;
    for (unsigned long i = 0; i < cycles; i++) {
        wire_wait(start + (long)i * (SECOND / (long)rate));
        if (i % (rate / 8) == 0) tool_change(&tool, i / (rate / 8));
        cycle(i);
        if (i == cycles / 10) early = resident();
    }
    return early;
}

/* The last post of the motion task is taken, put out, and read. */
static void follow(struct worker *motion) {
    struct zangjulf_taken taken;
    tool_expect(zangjulf_take_posts(&tool.line, &taken), "posts are taken");
    step_motion(motion);
    tool_expect(zangjulf_take_posts(&tool.line, &taken), "the last post is taken");
    if (taken.accepted != 1 << MOTION || taken.refused) fail(motion, "the last post isn't accepted alone");
    cycle(0);
    cycle(1);
    view(motion);
    if (number_of(motion, motion->image + OUTPUTS, INPUTS) != motion->posted) fail(motion, "the last post isn't read");
}

static void print_counts(const struct worker *worker) {
    printf("%s: views %lu, new images %lu, posts %lu, answered up to %u, longest step %ld us\n", worker->name,
           worker->views, worker->images, worker->posts, worker->read, worker->longest_step / 1000);
}

int main(int count, char **words) {
    static struct worker workers[2];
    pthread_t threads[2];
    if ((count != 4 && count != 5) || atol(words[2]) < 100 || atol(words[3]) < 8) return 2;
    if (!wire_open(TOOL_SLAVE, TOOL_SLAVES, count == 5 ? words[4] : NULL)) {
        printf("tasks: no network namespaces with a pair of devices can be made here\n");
        return 77;
    }
    tool_open(&tool, words[1]);
    long turn = SECOND / atol(words[3]);
    workers[MOTION] = (struct worker){.name = "motion", .step = step_motion, .turn = turn};
    workers[MACHINE] = (struct worker){.name = "machine", .step = step_machine, .turn = 4 * turn};
    for (uint8_t i = 0; i < 2; i++) tool_expect(zangjulf_seat_open(&tool.line, i, &workers[i].seat), "a seat");
    cycle(0);
    start = wire_now();
    for (int i = 0; i < 2; i++)
        if (pthread_create(&threads[i], NULL, work, &workers[i])) wire_fail("there is no thread");
    long early = run(strtoul(words[2], NULL, 10), strtoul(words[3], NULL, 10)), late = resident();
    atomic_store(&is_over, true);
    for (int i = 0; i < 2; i++) pthread_join(threads[i], NULL);
    cycle(0);
    follow(&workers[MOTION]);
    wire_close();
    for (int i = 0; i < 2; i++) print_counts(&workers[i]), tool_expect(zangjulf_seat_close(&workers[i].seat), "a seat isn't closed");
    tool_expect(zangjulf_close(&tool.line), "the line isn't closed");
    printf("cycles %s, tools docked %lu, tools given up %lu, longest change %ld us, memory %ld KiB early, %ld KiB late\n", words[2], tool.docked, tool.given_up,
           tool.longest_change / 1000, early, late);
    return late > early + MOST_GROWTH;
}
