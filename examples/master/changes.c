/* Tools that come, go and fail while two axes keep their cycles: an owner and two task threads on the wire of `wire.c`, 1,000 cycles a
 * second unless another number is given. The axes are in task 0, the machine's inputs and outputs in task 1, and the tools in task 2, which
 * alone waits for them.
 *
 *   a  a tool comes and goes 50 times; it stays on the wire with its FMMUs switched off
 *   b  the same, with 100 further input areas in the tool's task, whose register blocks each change owes too
 *   c  a tool comes, and answers nothing for 2 s
 *   d  a tool is disconnected and stays plugged as it is; another one comes in its task, and has its outputs once the first one is
 *      switched off
 *   e  a tool is pulled without notice, and given up after three wrong counters
 *
 * Of each a line is printed: the axes' cycles without an exchange, the axes' views without data, those older than one cycle, and the
 * axes' posts that were refused; and how often the outputs of the tool that stays plugged changed. All must be 0. A cycle counts apart,
 * as the machine's fault, if the owner woke late and its frames were on the simulated wire for more than 0.5 ms together; if more
 * than 5 % are, the run says nothing of the axes: it ends with status 75, and may be made again. If no namespaces can be made it says
 * so, and ends with status 77.
 *
 *     changes PROJECT [LETTERS [CYCLES_A_SECOND [short]]]
 *
 * PROJECT is examples/own_tasks.toml. With `short` a tool comes and goes 10 times, is silent for 0.2 s, and is pulled twice. */
#include <pthread.h>
#include <stdatomic.h>
#include <stdio.h>
#include <stdlib.h>
#include <string.h>
#include <sys/mman.h>
#include <sys/wait.h>
#include <unistd.h>

#include "wire.h"
#include "zangjulf.h"

enum { AXES, MACHINE, TOOL, TASKS };
enum { GRIPPER_SLAVE = 4, OTHER_SLAVE, FIRST_SENSOR };
#define SENSORS 25 /* each with four input areas */
#define MOST_CYCLES 4096
#define SLAVES (FIRST_SENSOR + SENSORS)
#define LATE (SECOND / 2000)
#define MOST_WRONG 3 /* so many wrong counters in a row, and the tool is given up */
#define MOST_TRIES 20
#define NO_NAMESPACES 77 /* statuses */
#define TOO_LATE 75

/* A tool: its alias, its slave, and what is put out to it. */
struct tool {
    uint16_t alias, station;
    uint8_t slave, areas, output;
};
static const struct tool GRIPPER = {100, 2001, GRIPPER_SLAVE, 2, 0x03}, OTHER = {110, 2301, OTHER_SLAVE, 2, 0x5c};
static const char OTHER_TEXT[] = "[[group]]\nalias = 110\n[[group.slave]]\nstation = 2301\n"
                                 "[[group.slave.area]]\nsm = 2\ndir = \"out\"\nphys = 0x1100\ntask = 2\nassigned = [1]\npdo = [{ index = 1, entries = [[401, 8]] }]\n"
                                 "[[group.slave.area]]\nsm = 3\ndir = \"in\"\nphys = 0x1180\ntask = 2\nassigned = [2]\npdo = [{ index = 2, entries = [[411, 8]] }]\n";

/* What the axes' thread counts, and the owner. */
struct counts {
    unsigned long cycles, apart, unexchanged, refused, exchanges_of_tool, changed, views, empty, old;
};

/* A thread of a task: its seat, in which cycles it works, and a variable that it posts. */
struct worker {
    struct zangjulf_seat seat;
    struct zangjulf_place target;
    unsigned long each;
    int priority;
};

static struct zangjulf line;
static struct worker workers[2];
static struct counts counts;
static const struct tool *present; /* the tool in the line, or NULL */
static unsigned wrong;
static uint64_t first_serial; /* of the frames of the present cycle */
static bool is_exchanged;     /* whether the axes have an answer in it */
static struct seen {
    uint64_t showing;
    uint16_t has;
    uint8_t state;
} seen[MOST_CYCLES];            /* what the axes viewed in each cycle */
static bool is_late[MOST_CYCLES]; /* the cycles that count apart */
static atomic_bool is_over;
static long start, turn = SECOND / 1000; /* of the cycles */

static void must(uint8_t answer, const char *what) {
    if (!answer) return;
    printf("changes: cycle %lu: %s: %s: %s\n", counts.cycles, what, zangjulf_name(answer), zangjulf_text(answer));
    exit(1);
}

static void check(bool fact, const char *what) {
    if (fact) return;
    printf("changes: cycle %lu: ", counts.cycles);
    wire_fail(what);
}

/* --- the tasks' threads ---------------------------------------------------------------------------------------------------- */

/* The axes' views are counted once all is over: only then all cycles that count apart are known. A view is of the present cycle's image, or of
 * the one before. The owner shows one a cycle, and the first one is there as the seat is opened. */
static void count_views(unsigned long cycles) {
    for (unsigned long cycle = 1; cycle < cycles; cycle++) {
        const struct seen *it = &seen[cycle];
        if (!it->showing || is_late[cycle] || is_late[cycle - 1]) continue;
        counts.views++;
        counts.empty += !it->has;
        counts.old += it->showing + 1 < cycle + 2 || it->state != ZANGJULF_COMPLETE;
    }
}

static void *work(void *given) {
    struct worker *worker = given;
    uint8_t image[ZANGJULF_IMAGE], outputs[ZANGJULF_IMAGE];
    struct zangjulf_view view;
    uint64_t number;
    wire_priority(worker->priority);
    for (unsigned long cycle = 1; !atomic_load(&is_over); cycle += worker->each) {
        wire_wait(start + (long)cycle * turn + turn / 2);
        must(zangjulf_seat_view(&worker->seat, image, sizeof image, NULL, 0, &view), "a view");
        if (worker == &workers[AXES] && cycle < MOST_CYCLES) seen[cycle] = (struct seen){view.showing, view.has, view.state};
        must(zangjulf_seat_outputs(&worker->seat, outputs, sizeof outputs), "the outputs");
        must(zangjulf_put_bits(outputs, view.outputs, worker->target.image_bit, worker->target.bits, cycle % 2), "a value");
        must(zangjulf_seat_post(&worker->seat, view.epoch, outputs, view.outputs, &number), "a post");
    }
    return NULL;
}

/* --- the owner ------------------------------------------------------------------------------------------------------------- */

/* What returned is handed in; whether it is a frame of this cycle. A late one has an earlier serial. A tool whose datagram comes back with a
 * wrong counter may be gone. */
static bool hand_in(const uint8_t *frame, size_t size) {
    struct zangjulf_outcome outcomes[ZANGJULF_OUTCOMES];
    struct zangjulf_arrival arrival;
    must(zangjulf_arrive(&line, frame, size, outcomes, ZANGJULF_OUTCOMES, &arrival), "a frame can't be read");
    for (int i = 0; i < arrival.datagrams && arrival.kind == ZANGJULF_OF_TASKS; i++) {
        bool is_good = outcomes[i].kind == ZANGJULF_INPUTS;
        if (outcomes[i].task == AXES) is_exchanged |= is_good;
        if (outcomes[i].task == TOOL) wrong = is_good ? 0 : wrong + 1, counts.exchanges_of_tool += is_good && present;
    }
    return arrival.kind != ZANGJULF_STALE && arrival.serial >= first_serial;
}

/* Sends a frame of one's own; whether it comes back with working counter 1, in its byte. A frame of the line that comes meanwhile is
 * handed in. */
static bool is_taken(const uint8_t *frame, size_t size, size_t counter) {
    const struct zangjulf_frame all = {0, (uint32_t)size};
    uint8_t returned[ZANGJULF_FRAME];
    long until = start + (long)counts.cycles * turn - turn / 20; /* shortly before the next cycle */
    wire_send(frame, &all, 1);
    for (size_t came; (came = wire_receive(returned, until)); hand_in(returned, came))
        if (came == size && !memcmp(returned + 7, frame + 7, 17)) return returned[counter] == 1; /* its serial and its first datagram */
    return false;
}

static bool is_switched_off(const struct tool *tool) {
    uint8_t frame[ZANGJULF_FRAME];
    size_t size;
    must(zangjulf_fmmu_off(tool->station, tool->areas, frame, sizeof frame, &size), "a tool's FMMUs");
    return is_taken(frame, size, 26 + 16u * tool->areas);
}

/* What is to be done with a tool once it takes zeros to its FMMUs, and how often it was tried. */
enum wish { NOTHING, COMES, GOES, IS_CLEARED };
static struct {
    enum wish wish;
    const struct tool *tool;
    int tries;
} wanted;
static bool loses_contact; /* of a tool, as soon as it is in the line */
static bool is_short;      /* a run with fewer changes */

/* The tool in the line leaves it: what follows says where it is. */
static void leave_line(void) {
    struct zangjulf_cost cost;
    must(zangjulf_disconnect(&line, present->alias, false, &cost), "a tool goes");
    present = NULL;
    wrong = 0;
}

static void join_line(const struct tool *tool) {
    struct zangjulf_cost cost;
    must(zangjulf_connect(&line, tool->alias, false, &cost), "a tool comes");
    check(cost.waits == 1 << TOOL, "a tool's coming makes another task wait");
    present = tool;
}

/* Slaves come with their station address here: on a wire of one's own `zangjulf_station_write` gives it. A tool that doesn't take zeros to
 * its FMMUs is not connected, and tried again in the next cycle. */
static void carry_out(void) {
    const struct tool *tool = wanted.tool;
    if (wanted.wish == NOTHING) return;
    check(wanted.tries++ < MOST_TRIES, "a tool doesn't answer");
    if (!is_switched_off(tool)) return;
    if (wanted.wish == COMES) join_line(tool);
    if (wanted.wish == GOES) leave_line();
    must(zangjulf_cleared(&line, tool->station), "a tool is cleared");
    if (loses_contact) wire_plug(tool->slave, true, false);
    wanted.wish = NOTHING;
}

static void want(enum wish wish, const struct tool *tool) {
    if (wish == COMES) wire_plug(tool->slave, true, true);
    wanted.wish = wish, wanted.tool = tool, wanted.tries = 0;
}

/* The outputs of the tool in the line. */
static void post_tool(void) {
    uint8_t outputs[ZANGJULF_IMAGE];
    struct zangjulf_image_sizes sizes;
    uint32_t epoch;
    must(zangjulf_epoch(&line, &epoch), "the epoch");
    must(zangjulf_image_sizes(&line, TOOL, &sizes), "the bytes of the tool's task");
    memset(outputs, present->output, sizes.outputs);
    must(zangjulf_post(&line, TOOL, epoch, outputs, sizes.outputs), "the tool's outputs");
}

/* The frames of the ready tasks, and one of owed register blocks; how many they are. */
static size_t write_frames(uint8_t *frames, struct zangjulf_frame *table, unsigned long number) {
    struct zangjulf_sent sent;
    struct zangjulf_writes writes;
    uint8_t ready, tasks[TASKS], count = 0;
    must(zangjulf_ready(&line, &ready), "the ready tasks");
    must(zangjulf_next_serial(&line, &first_serial), "the serial");
    is_exchanged = false;
    for (uint8_t task = 0; task < TASKS; task++)
        if (ready >> task & 1 && (task != MACHINE || number % 4 == 0)) tasks[count++] = task;
    must(zangjulf_send(&line, tasks, count, frames, ZANGJULF_FRAMES, table, ZANGJULF_FRAME_COUNT, &sent), "a sending");
    uint8_t answer = zangjulf_next_writes(&line, frames + sent.size, ZANGJULF_FRAME, &writes);
    if (answer == ZANGJULF_NOTHING_OWED) return sent.frames;
    must(answer, "register writes");
    table[sent.frames] = (struct zangjulf_frame){sent.size, writes.size};
    return sent.frames + 1;
}

/* One cycle: posts are taken, frames are sent and received, images are shown. Register writes have come back by then, or are lost: they
 * are sent again in the next cycle, 1 ms later, which is longer than a round trip takes. */
static void cycle(unsigned long number) {
    static uint8_t frames[ZANGJULF_FRAMES + ZANGJULF_FRAME], returned[ZANGJULF_FRAME];
    struct zangjulf_frame table[ZANGJULF_FRAME_COUNT + 1];
    struct zangjulf_taken taken;
    long wake = start + (long)number * turn;
    wire_wait(wake);
    long late = wire_now() - wake;
    must(zangjulf_take_posts(&line, &taken), "posts are taken");
    counts.refused += taken.refused >> AXES & 1;
    if (present) post_tool();
    size_t count = write_frames(frames, table, number);
    wire_send(frames, table, count);
    long until = wake + turn * 85 / 100;
    for (size_t came; count && (came = wire_receive(returned, until));) count -= hand_in(returned, came);
    is_late[number] = late + wire_took(!count) > LATE;
    counts.apart += is_late[number];
    must(zangjulf_show(&line), "images are shown");
    counts.unexchanged += !is_exchanged && !is_late[number];
    counts.cycles++;
}

/* --- what happens to the tools --------------------------------------------------------------------------------------------- */

/* a, b: 20 cycles in the line, 20 outside it. */
static void comes_and_goes(unsigned long number) {
    static unsigned long before;
    if (number % 40 == 10) before = counts.exchanges_of_tool, want(COMES, &GRIPPER);
    if (number % 40 == 30) check(counts.exchanges_of_tool > before, "a tool isn't exchanged while it is there"), want(GOES, &GRIPPER);
}

static void is_silent(unsigned long number) {
    const unsigned long answers = is_short ? 320 : 2120;
    if (number == 100) loses_contact = true, want(COMES, &GRIPPER);
    if (number == answers) check(present && !counts.exchanges_of_tool, "a silent tool is exchanged"), wire_plug(GRIPPER_SLAVE, true, true);
    if (number == answers + 170) check(counts.exchanges_of_tool > 50, "a tool isn't exchanged once it answers");
}

static void stays_plugged(unsigned long number) {
    static unsigned long before;
    if (number == 100) want(COMES, &GRIPPER);
    if (number == 200) check(wire_output(GRIPPER_SLAVE) == GRIPPER.output, "a tool doesn't get its outputs"), leave_line();
    if (number == 210) before = counts.exchanges_of_tool, want(COMES, &OTHER);
    if (number >= 200) counts.changed += wire_output(GRIPPER_SLAVE) != GRIPPER.output;
    if (number == 700) check(counts.exchanges_of_tool == before, "a task is sent while a plugged tool may take its outputs"), want(IS_CLEARED, &GRIPPER);
    if (number == 800) check(wire_output(OTHER_SLAVE) == OTHER.output, "the other tool doesn't get its outputs");
}

static void is_pulled(unsigned long number) {
    if (number % 200 == 50) want(COMES, &GRIPPER);
    if (number % 200 == 150) check(wire_output(GRIPPER_SLAVE) == GRIPPER.output, "a tool doesn't get its outputs"), wire_plug(GRIPPER_SLAVE, false, false);
    if (present && wrong >= MOST_WRONG) leave_line(), must(zangjulf_unplugged(&line, GRIPPER.station), "a tool is unplugged");
    if (number % 200 == 199) check(!present, "a tool that was pulled is in the line");
}

static const struct change {
    char letter;
    const char *name, *short_name;
    void (*step)(unsigned long number);
    unsigned long cycles, short_cycles;
    bool has_sensors;
} CHANGES[] = {
    {'a', "a tool comes and goes 50 times", "a tool comes and goes 10 times", comes_and_goes, 2000, 400, false},
    {'b', "the same, with 100 further input areas in its task", "the same, with 100 further input areas in its task", comes_and_goes, 2000, 400, true},
    {'c', "a tool answers nothing for 2 s", "a tool answers nothing for 0.2 s", is_silent, 2300, 500, false},
    {'d', "a tool stays plugged, and another one comes", "a tool stays plugged, and another one comes", stays_plugged, 1000, 1000, false},
    {'e', "a tool is pulled without notice, five times", "a tool is pulled without notice, twice", is_pulled, 1000, 400, false},
};

/* --- a run ----------------------------------------------------------------------------------------------------------------- */

/* The slaves in their order: the coupler, both axes, the machine's inputs and outputs, two tools, and the sensors. */
static void wire_slaves(struct wire_slave *slaves) {
    static const struct wire_slave first[FIRST_SENSOR] = {{1001, 0, 0, 0}, {1002, 0x1100, 0x1180, 6}, {1003, 0x1100, 0x1180, 6},
                                                          {1004, 0x1000, 0x1080, 1}, {2001, 0x1100, 0x1180, 1}, {2301, 0x1100, 0x1180, 1}};
    memcpy(slaves, first, sizeof first);
    for (int i = 0; i < SENSORS; i++) slaves[FIRST_SENSOR + i] = (struct wire_slave){(uint16_t)(5001 + i), 0, 0, 0};
}

/* The project, with the sensors' slaves before its groups where they are wanted. */
static size_t read_project(const char *name, bool has_sensors, char *text, size_t room) {
    FILE *in = fopen(name, "rb");
    check(in != NULL, "there is no such project");
    size_t size = fread(text, 1, room, in);
    fclose(in);
    for (int i = 0; has_sensors && i < SENSORS; i++) {
        size += (size_t)snprintf(text + size, room - size, "[[slave]]\nstation = %d\n", 5001 + i);
        for (int k = 0; k < 4; k++)
            size += (size_t)snprintf(text + size, room - size,
                                     "[[slave.area]]\nsm = %d\ndir = \"in\"\nphys = %d\ntask = 2\nassigned = [1]\npdo = [{ index = 1, entries = [[%d, 8]] }]\n", k,
                                     0x1200 + 16 * k, 5000 + 4 * i + k);
    }
    return size;
}

static void open_line(const char *project, bool has_sensors) {
    static char text[1 << 17];
    const struct zangjulf_options options = {sizeof options, 0};
    const uint32_t targets[2] = {2, 41};
    struct zangjulf_cost cost;
    uint8_t task;
    size_t size = read_project(project, has_sensors, text, sizeof text);
    must(zangjulf_open(&line, &options, (const uint8_t *)text, size, &task), "the project isn't opened");
    must(zangjulf_declare(&line, (const uint8_t *)OTHER_TEXT, sizeof OTHER_TEXT - 1, false, &cost), "the other tool isn't declared");
    for (uint8_t i = 0; i < 2; i++) {
        must(zangjulf_seat_open(&line, i, &workers[i].seat), "a seat");
        must(zangjulf_place(&line, targets[i], &workers[i].target), "a variable");
        workers[i].each = i ? 4 : 1, workers[i].priority = 25 - i;
    }
}

/* The register blocks of the mandatory slaves are written before the cycles begin. */
static void write_all(void) {
    uint8_t frame[ZANGJULF_FRAME], returned[ZANGJULF_FRAME];
    struct zangjulf_writes writes;
    uint8_t answer;
    while (!(answer = zangjulf_next_writes(&line, frame, sizeof frame, &writes))) hand_in(returned, wire_pass(frame, writes.size, returned));
    if (answer != ZANGJULF_NOTHING_OWED) must(answer, "register writes");
}

static int run(const struct change *change, const char *project) {
    struct wire_slave slaves[SLAVES];
    pthread_t threads[2];
    wire_slaves(slaves);
    if (!wire_open(slaves, SLAVES, NULL)) {
        printf("changes: no network namespaces with a pair of devices can be made here\n");
        return NO_NAMESPACES;
    }
    const unsigned long cycles = is_short ? change->short_cycles : change->cycles;
    wire_plug(GRIPPER_SLAVE, false, false), wire_plug(OTHER_SLAVE, false, false);
    for (int i = FIRST_SENSOR; i < SLAVES; i++) wire_plug((size_t)i, change->has_sensors, true);
    open_line(project, change->has_sensors);
    write_all();
    mlockall(MCL_CURRENT | MCL_FUTURE);
    wire_priority(30);
    start = wire_now() + SECOND / 20;
    for (int i = 0; i < 2; i++) check(!pthread_create(&threads[i], NULL, work, &workers[i]), "there is no thread");
    cycle(0);
    for (unsigned long number = 1; number < cycles; number++) cycle(number), change->step(number), carry_out();
    atomic_store(&is_over, true);
    for (int i = 0; i < 2; i++) pthread_join(threads[i], NULL);
    count_views(cycles);
    wire_close();
    must(zangjulf_close(&line), "the line isn't closed");
    for (int i = 0; i < 2; i++) must(zangjulf_seat_close(&workers[i].seat), "a seat isn't closed");
    printf("%c %s: cycles %lu, without an exchange %lu; views %lu, without data %lu, older than one cycle %lu; posts refused %lu; outputs of the plugged tool changed %lu; apart %lu\n",
           change->letter, is_short ? change->short_name : change->name, counts.cycles, counts.unexchanged, counts.views, counts.empty, counts.old, counts.refused, counts.changed, counts.apart);
    bool is_wrong = counts.unexchanged || counts.empty || counts.old || counts.refused || counts.changed || !counts.views;
    if (is_wrong) return 1;
    return 20 * counts.apart > counts.cycles ? TOO_LATE : 0;
}

int main(int count, char **words) {
    int worst = 0;
    if (count < 2 || count > 5 || zangjulf_abi() != ZANGJULF_ABI) return 2;
    if (count > 3 && atol(words[3]) > 0) turn = SECOND / atol(words[3]);
    is_short = count == 5 && !strcmp(words[4], "short");
    for (size_t i = 0; i < sizeof CHANGES / sizeof *CHANGES; i++) {
        int status = 1;
        if (count > 2 && !strchr(words[2], CHANGES[i].letter)) continue;
        fflush(stdout);
        pid_t child = fork();
        if (!child) exit(run(&CHANGES[i], words[1]));
        if (waitpid(child, &status, 0) < 0 || !WIFEXITED(status)) return 1;
        if (WEXITSTATUS(status) == NO_NAMESPACES) return NO_NAMESPACES;
        if (WEXITSTATUS(status) && worst != 1) worst = WEXITSTATUS(status);
    }
    return worst;
}
