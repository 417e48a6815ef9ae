/* Threads that meet at one handle, which is one thread's at a time. First two threads look. Then they look while a third one posts,
 * sends, takes what arrives and edits, all at full speed. Each answer is either ZANGJULF_BUSY, and then nothing was written, or right, and
 * never ZANGJULF_CLOSED; an epoch, a serial and the content of a line never go back. It is given the project of the tool changer, runs
 * for two seconds, and ends with status 1 at the first answer that can't be. */
#include <pthread.h>
#include <stdatomic.h>
#include <stdio.h>
#include <stdlib.h>
#include <string.h>
#include <time.h>

#include "zangjulf.h"

#define EXPECT(fact) ((fact) ? (void)0 : fail(__LINE__, #fact))
#define LOOKERS 2
#define ALIAS 100 /* a group that comes and goes */

static void fail(int line, const char *fact) {
    printf("threads.c:%d: not so: %s\n", line, fact);
    exit(1);
}

static uint8_t text[1 << 16];
static struct zangjulf line;
static atomic_bool ended;

/* What a thread did: calls that were answered, and calls that met another one. */
struct count {
    unsigned long answered;
    unsigned long busy;
};

static bool is_answered(struct count *count, unsigned answer) {
    EXPECT(answer != ZANGJULF_CLOSED);
    if (answer == ZANGJULF_BUSY) {
        count->busy++;
        return false;
    }
    count->answered++;
    return true;
}

/* The numbers of a line that never go back. */
struct seen {
    uint32_t epoch;
    uint64_t serial;
};

/* Looks at all that a look-up answers. What the mandatory group has is in every line. */
static void look(struct count *count, struct seen *seen) {
    uint32_t epoch = 77, owed = 7777, position = 77;
    uint64_t serial = 77, serials[ZANGJULF_DATAGRAMS];
    uint16_t station = 77, adds = 77;
    uint8_t out[ZANGJULF_IMAGE], frame[ZANGJULF_FRAME];
    size_t size = 77;
    struct zangjulf_place place;
    struct zangjulf_datagram datagram;
    struct zangjulf_image_sizes sizes;
    struct zangjulf_block block;
    struct zangjulf_image image;
    unsigned answer = zangjulf_epoch(&line, &epoch);
    if (is_answered(count, answer)) {
        EXPECT(answer == ZANGJULF_DONE && epoch >= seen->epoch);
        seen->epoch = epoch;
    } else {
        EXPECT(epoch == 77);
    }
    answer = zangjulf_next_serial(&line, &serial);
    if (is_answered(count, answer)) {
        EXPECT(answer == ZANGJULF_DONE && serial >= seen->serial);
        seen->serial = serial;
    } else {
        EXPECT(serial == 77);
    }
    answer = zangjulf_owed(&line, &owed);
    if (is_answered(count, answer)) EXPECT(answer == ZANGJULF_DONE && owed < 1000);
    else EXPECT(owed == 7777);
    answer = zangjulf_place(&line, 1, &place);
    if (is_answered(count, answer))
        EXPECT(answer == ZANGJULF_DONE && place.task == 0 && place.bits == 16 && !place.is_input);
    answer = zangjulf_datagram(&line, 0, 0, &datagram);
    if (is_answered(count, answer)) EXPECT(answer == ZANGJULF_DONE && datagram.length <= ZANGJULF_DATA && datagram.offset == 0);
    answer = zangjulf_image_sizes(&line, 0, &sizes);
    if (is_answered(count, answer)) EXPECT(answer == ZANGJULF_DONE && sizes.outputs > 0 && sizes.inputs > 0);
    answer = zangjulf_station(&line, 0, &station);
    if (is_answered(count, answer)) EXPECT(answer == ZANGJULF_DONE && station == 1001);
    else EXPECT(station == 77);
    answer = zangjulf_position(&line, 1002, &position);
    if (is_answered(count, answer)) EXPECT(answer == ZANGJULF_DONE && position == 1);
    else EXPECT(position == 77);
    answer = zangjulf_expected_of(&line, 0, 0, 1002, &adds);
    if (is_answered(count, answer)) EXPECT(answer == ZANGJULF_DONE && adds == 3);
    else EXPECT(adds == 77);
    answer = zangjulf_block(&line, 1002, 0, frame, sizeof frame, &block);
    if (is_answered(count, answer)) EXPECT(answer == ZANGJULF_DONE && block.start == 0x0810 && block.size == 8);
    answer = zangjulf_preview(&line, 0, 0, frame, sizeof frame, &size);
    if (is_answered(count, answer)) EXPECT(answer == ZANGJULF_DONE && size == zangjulf_frame_size(frame));
    else EXPECT(size == 77);
    answer = zangjulf_read(&line, 0, out, sizeof out, serials, ZANGJULF_DATAGRAMS, &image);
    if (is_answered(count, answer)) EXPECT(answer == ZANGJULF_DONE && image.size <= sizeof out && image.datagrams > 0);
}

static void *looks(void *count) {
    struct seen seen = {0, 0};
    while (!atomic_load(&ended)) look(count, &seen);
    return NULL;
}

/* Asks until no other call runs. */
#define ASK(call) do { answer = (call); } while (!is_answered(count, answer))

/* Writes each owed block, as a line would answer it. */
static void program(struct count *count) {
    uint8_t frame[ZANGJULF_FRAME];
    struct zangjulf_write write;
    struct zangjulf_outcome outcome;
    struct zangjulf_arrival arrival;
    unsigned answer;
    for (;;) {
        ASK(zangjulf_next_write(&line, frame, sizeof frame, &write));
        if (answer == ZANGJULF_NOTHING_OWED) return;
        EXPECT(answer == ZANGJULF_DONE);
        frame[26 + frame[22]] = 1;
        ASK(zangjulf_arrive(&line, frame, write.size, &outcome, 1, &arrival));
        EXPECT(answer == ZANGJULF_DONE && arrival.kind == ZANGJULF_OF_BLOCKS && outcome.kind == ZANGJULF_BLOCK_WRITTEN);
    }
}

/* One task's outputs are posted and sent, and the frames come back as they were sent. */
static void cycle(struct count *count, uint32_t epoch) {
    static uint8_t frames[ZANGJULF_FRAMES], outputs[ZANGJULF_IMAGE];
    struct zangjulf_outcome outcomes[ZANGJULF_OUTCOMES];
    struct zangjulf_arrival arrival;
    struct zangjulf_image_sizes sizes;
    struct zangjulf_sent sent;
    const uint8_t tasks[1] = {0};
    unsigned answer;
    ASK(zangjulf_image_sizes(&line, 0, &sizes));
    ASK(zangjulf_post(&line, 0, epoch, outputs, sizes.outputs));
    EXPECT(answer == ZANGJULF_DONE);
    ASK(zangjulf_send(&line, tasks, 1, frames, sizeof frames, NULL, 0, &sent));
    EXPECT(answer == ZANGJULF_DONE && sent.frames > 0);
    for (uint8_t *frame = frames; frame < frames + sent.size; frame += zangjulf_frame_size(frame)) {
        ASK(zangjulf_arrive(&line, frame, zangjulf_frame_size(frame), outcomes, ZANGJULF_OUTCOMES, &arrival));
        EXPECT(answer == ZANGJULF_DONE && arrival.kind == ZANGJULF_OF_TASKS && arrival.datagrams > 0);
    }
}

static void *changes(void *given) {
    struct count *count = given;
    struct zangjulf_cost cost;
    uint32_t epoch = 0;
    bool is_present = false;
    unsigned answer;
    while (!atomic_load(&ended)) {
        program(count);
        for (int i = 0; i < 20; i++) cycle(count, epoch);
        if (is_present) ASK(zangjulf_disconnect(&line, ALIAS, false, &cost));
        else ASK(zangjulf_connect(&line, ALIAS, false, &cost));
        EXPECT(answer == ZANGJULF_DONE && cost.epoch == epoch + 1);
        epoch = cost.epoch;
        is_present = !is_present;
    }
    return NULL;
}

static void run(bool with_changes, double seconds) {
    struct count counts[LOOKERS + 1] = {{0, 0}};
    pthread_t threads[LOOKERS + 1];
    struct timespec rest = {(time_t)seconds, (long)((seconds - (time_t)seconds) * 1e9)};
    unsigned long answered = 0, busy = 0;
    atomic_store(&ended, false);
    for (int i = 0; i < LOOKERS; i++) EXPECT(!pthread_create(&threads[i], NULL, looks, &counts[i]));
    if (with_changes) EXPECT(!pthread_create(&threads[LOOKERS], NULL, changes, &counts[LOOKERS]));
    nanosleep(&rest, NULL);
    atomic_store(&ended, true);
    for (int i = 0; i < LOOKERS + with_changes; i++) EXPECT(!pthread_join(threads[i], NULL));
    for (int i = 0; i < LOOKERS; i++) {
        answered += counts[i].answered;
        busy += counts[i].busy;
    }
    printf("threads: %lu looks answered, %lu busy; %lu changes answered, %lu busy\n", answered, busy, counts[LOOKERS].answered,
           counts[LOOKERS].busy);
    EXPECT(answered > 1000);
    if (with_changes) EXPECT(busy + counts[LOOKERS].busy > 0 && counts[LOOKERS].answered > 100);
}

int main(int count, char **words) {
    struct count none = {0, 0};
    struct zangjulf_options options = {sizeof options, 0};
    uint8_t task;
    FILE *file = count == 2 ? fopen(words[1], "rb") : NULL;
    EXPECT(file);
    size_t length = fread(text, 1, sizeof text, file);
    fclose(file);
    EXPECT(zangjulf_open(&line, &options, text, length, &task) == ZANGJULF_DONE);
    program(&none);
    run(false, 0.5);
    run(true, 1.5);
    EXPECT(none.busy == 0);
    EXPECT(zangjulf_close(&line) == ZANGJULF_DONE);
    return 0;
}
