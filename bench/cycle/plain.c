#include "plain.h"

#include <string.h>

#define HEAD 16
#define DATA 10
#define BESIDE 12
#define MOST_ETHERCAT 1498
#define LAST_SERIAL (((uint64_t)1 << 40) - 1)

static uint16_t word(const uint8_t *bytes) { return (uint16_t)(bytes[0] | bytes[1] << 8); }

static void put_word(uint8_t *bytes, uint16_t value) { bytes[0] = (uint8_t)value, bytes[1] = (uint8_t)(value >> 8); }

static uint64_t serial_of(const uint8_t *frame) {
    uint64_t serial = 0;
    for (int i = 0; i < 5; i++) serial = serial << 8 | frame[7 + i];
    return serial;
}

/* --- what is sent --- */

/* A post goes into the task's outputs, and into the kept frames that carry them. */
static void put_outputs(struct plain_task *task, const uint8_t *bytes) {
    memcpy(task->sent, bytes, task->outputs);
    for (size_t i = 0; i < task->count; i++) {
        struct plain_datagram *datagram = &task->datagrams[i];
        if (datagram->kept && datagram->outputs) memcpy(datagram->kept, bytes + datagram->offset, datagram->outputs);
    }
}

static int post(struct plain *line, uint8_t task, uint32_t epoch, const uint8_t *bytes, size_t size) {
    if (task >= TASKS) return 8;
    if (epoch != line->epoch) return 15;
    if (size != line->tasks[task].outputs) return 16;
    put_outputs(&line->tasks[task], bytes);
    return 0;
}

int plain_post(struct plain *line, uint8_t task, uint32_t epoch, const uint8_t *bytes, size_t size) {
    if (!plain_enter(line)) return 253;
    int answer = post(line, task, epoch, bytes, size);
    plain_leave(line);
    return answer;
}

static void begin_frame(struct plain_frame *frame) {
    static const uint8_t head[14] = {255, 255, 255, 255, 255, 255, 2, 0, 0, 0, 0, 0, 0x88, 0xa4};
    memset(frame->bytes, 0, sizeof frame->bytes);
    memcpy(frame->bytes, head, sizeof head);
    frame->size = HEAD, frame->count = 0;
}

static void end_frame(struct plain_frame *frame) {
    put_word(frame->bytes + 14, (uint16_t)((frame->size - HEAD) | 0x1000));
    if (frame->size < 60) frame->size = 60;
}

static void add_datagram(struct plain_frame *frame, struct plain_datagram *datagram, const uint8_t *sent) {
    if (frame->count) frame->bytes[frame->at[frame->count - 1] + 7] |= 0x80;
    uint8_t *at = frame->bytes + frame->size;
    at[0] = 12;
    put_word(at + 2, (uint16_t)datagram->address), put_word(at + 4, (uint16_t)(datagram->address >> 16));
    put_word(at + 6, datagram->length);
    memcpy(at + DATA, sent + datagram->offset, datagram->outputs);
    datagram->kept = at + DATA;
    frame->at[frame->count] = (uint16_t)frame->size;
    frame->datagrams[frame->count++] = datagram;
    frame->size += BESIDE + datagram->length;
}

/* Builds the frames of these tasks and keeps them. */
static void keep(struct plain *line, const uint8_t *tasks, size_t count) {
    struct plain_frame *frame = NULL;
    for (size_t i = 0; i < TASKS; i++)
        for (size_t d = 0; d < DATAGRAMS; d++) line->tasks[i].datagrams[d].kept = NULL;
    line->frames = line->bytes = 0;
    for (size_t i = 0; i < count; i++)
        for (size_t d = 0; d < line->tasks[tasks[i]].count; d++) {
            struct plain_datagram *datagram = &line->tasks[tasks[i]].datagrams[d];
            if (!frame || frame->size + BESIDE + datagram->length > HEAD + MOST_ETHERCAT) {
                if (frame) end_frame(frame);
                begin_frame(frame = &line->kept[line->frames++]);
            }
            add_datagram(frame, datagram, line->tasks[tasks[i]].sent);
        }
    if (frame) end_frame(frame);
    for (size_t i = 0; i < line->frames; i++) line->bytes += line->kept[i].size;
    memcpy(line->kept_tasks, tasks, count);
    line->kept_count = count;
    memset(line->under_way, 0, sizeof line->under_way);
}

static bool holds_tasks(const struct plain *line, const uint8_t *tasks, size_t count) {
    return count == line->kept_count && !memcmp(tasks, line->kept_tasks, count);
}

/* A kept frame is sent: its serial, an index for each datagram, and what is awaited. */
static void put_frame(struct plain *line, const struct plain_frame *frame, uint8_t *out) {
    uint64_t serial = line->serial++;
    memcpy(out, frame->bytes, frame->size);
    for (int i = 0; i < 5; i++) out[7 + i] = (uint8_t)(serial >> (32 - 8 * i));
    for (size_t i = 0; i < frame->count; i++) out[frame->at[i] + 1] = (uint8_t)serial, frame->datagrams[i]->sent_last = serial;
    line->under_way[serial % UNDER_WAY] = (struct plain_sent){serial, frame};
}

static int send(struct plain *line, const uint8_t *tasks, size_t count, uint8_t *out, size_t room, size_t *size) {
    for (size_t i = 0; i < count; i++)
        if (tasks[i] >= TASKS) return 8;
    for (size_t i = 0; i < count; i++)
        if (!(line->ready >> tasks[i] & 1)) return 36;
    if (!holds_tasks(line, tasks, count)) keep(line, tasks, count);
    if (LAST_SERIAL - line->serial < line->frames) return 19;
    *size = line->bytes;
    if (room < line->bytes) return 29;
    for (size_t i = 0; i < count; i++) line->tasks[tasks[i]].first_serial = line->serial;
    for (size_t i = 0; i < line->frames; i++) put_frame(line, &line->kept[i], out), out += line->kept[i].size;
    return 0;
}

int plain_send(struct plain *line, const uint8_t *tasks, size_t count, uint8_t *out, size_t room, size_t *size) {
    if (!plain_enter(line)) return 253;
    int answer = send(line, tasks, count, out, room, size);
    plain_leave(line);
    return answer;
}

/* --- what comes back --- */

/* The fault of a datagram's head, or 0, and how many bytes the datagram has. */
static int judge_head(const uint8_t *at, size_t left, uint8_t index, size_t *bytes, bool *more) {
    if (left < BESIDE) return 23;
    uint16_t field = word(at + 6);
    size_t length = field & 0x7ff;
    if (length < 1 || length > MOST_DATA || field & 0x3800 || BESIDE + length > left) return 23;
    if (field & 0x4000) return 24;
    if (at[0] != 1 && at[0] != 2 && at[0] != 5 && at[0] != 12) return 26;
    if (at[1] != index) return 27;
    *bytes = BESIDE + length, *more = field & 0x8000;
    return 0;
}

/* The fault of a frame, or 0: nothing is taken from one that can't be read to its end. */
static int judge_frame(const uint8_t *frame, size_t size) {
    if (size < 28) return 20;
    if (frame[12] != 0x88 || frame[13] != 0xa4) return 21;
    if (frame[15] >> 4 != 1) return 22;
    size_t region = word(frame + 14) & 0x7ff, at = 0, bytes = 0;
    if (HEAD + region > size) return 23;
    for (bool more = true; more; at += bytes) {
        int fault = judge_head(frame + HEAD + at, region - at, frame[11], &bytes, &more);
        if (fault) return fault;
        if (more && at + bytes >= region) return 25;
    }
    return at == region ? 0 : 23;
}

/* Whether what came back has the head of the kept frame and of each of its datagrams, indexes of its serial among them. */
static bool fits(const struct plain_frame *kept, const uint8_t *frame, size_t size) {
    if (size < kept->size || memcmp(frame + 12, kept->bytes + 12, 4)) return false;
    for (size_t i = 0; i < kept->count; i++) {
        uint64_t head, wanted;
        memcpy(&head, frame + kept->at[i], 8), memcpy(&wanted, kept->bytes + kept->at[i], 8);
        if (head != (wanted | (uint64_t)frame[11] << 8)) return false;
    }
    return true;
}

/* A datagram that came back: its data are stored if its counter is right and it wasn't sent again. */
static struct plain_outcome take(struct plain *line, struct plain_datagram *datagram, uint64_t serial, const uint8_t *frame, uint16_t at) {
    uint16_t data = (uint16_t)(at + DATA), got = word(frame + data + datagram->length);
    struct plain_outcome outcome = {PLAIN_AGAIN, datagram->task, datagram->number, datagram->expected, got, data, datagram->length};
    if (datagram->sent_last != serial) return outcome;
    outcome.kind = got == datagram->expected ? PLAIN_GOOD : PLAIN_WRONG;
    if (outcome.kind == PLAIN_WRONG) return outcome;
    memcpy(line->tasks[datagram->task].data + datagram->offset, frame + data, datagram->length);
    datagram->has_data = true, datagram->data_serial = serial;
    return outcome;
}

static int arrive(struct plain *line, const uint8_t *frame, size_t size, struct plain_outcome *outcomes, size_t room, size_t *count) {
    *count = 0;
    if (size < 28) return 20;
    uint64_t serial = serial_of(frame);
    struct plain_sent *sent = &line->under_way[serial % UNDER_WAY];
    const struct plain_frame *kept = sent->frame;
    if (!kept || sent->serial != serial || !fits(kept, frame, size)) return judge_frame(frame, size);
    for (size_t i = 0; i < kept->count; i++) {
        struct plain_outcome outcome = take(line, kept->datagrams[i], serial, frame, kept->at[i]);
        if (i < room) outcomes[i] = outcome;
    }
    *count = kept->count;
    sent->frame = NULL;
    return 0;
}

int plain_arrive(struct plain *line, const uint8_t *frame, size_t size, struct plain_outcome *outcomes, size_t room, size_t *count) {
    if (!plain_enter(line)) return 253;
    int answer = arrive(line, frame, size, outcomes, room, count);
    plain_leave(line);
    return answer;
}

/* --- seats --- */

static void box_open(struct plain_box *box) {
    atomic_init(&box->word, 1);
    box->written = 0, box->read = 2;
}

static void box_put(struct plain_box *box) { box->written = atomic_exchange(&box->word, box->written + 4) % 4; }

/* Whether something new lies ready: it is taken. */
static bool box_take(struct plain_box *box) {
    if (atomic_load(&box->word) < 4) return false;
    box->read = atomic_exchange(&box->word, box->read) % 4;
    return true;
}

static void show_to(const struct plain *line, const struct plain_task *task, const struct plain_seat *seat, struct plain_image *image) {
    size_t complete = 0;
    image->epoch = line->epoch, image->size = task->size, image->outputs = task->outputs;
    image->first_serial = task->first_serial, image->taken = seat->taken, image->has = 0;
    for (size_t i = 0; i < task->count; i++) {
        const struct plain_datagram *datagram = &task->datagrams[i];
        image->serials[i] = datagram->has_data ? datagram->data_serial : 0;
        image->has |= (uint16_t)(datagram->has_data << i);
        complete += datagram->has_data && datagram->data_serial >= task->first_serial;
    }
    image->state = complete == task->count ? 2 : complete ? 1 : 0;
    memcpy(image->data, task->data, task->size);
    memcpy(image->sent, task->sent, task->outputs);
}

/* The first image is shown at once. */
void plain_seat_open(struct plain *line, uint8_t task, struct plain_seat *seat) {
    box_open(&seat->shown), box_open(&seat->posted);
    line->seats[task] = seat;
    show_to(line, &line->tasks[task], seat, &seat->images[seat->shown.written]);
    box_put(&seat->shown);
}

int plain_show(struct plain *line) {
    if (!plain_enter(line)) return 253;
    for (size_t task = 0; task < TASKS; task++) {
        struct plain_seat *seat = line->seats[task];
        if (!seat) continue;
        show_to(line, &line->tasks[task], seat, &seat->images[seat->shown.written]);
        box_put(&seat->shown);
    }
    plain_leave(line);
    return 0;
}

int plain_take_posts(struct plain *line) {
    if (!plain_enter(line)) return 253;
    for (uint8_t task = 0; task < TASKS; task++) {
        struct plain_seat *seat = line->seats[task];
        if (!seat || !box_take(&seat->posted)) continue;
        const struct plain_post *posted = &seat->posts[seat->posted.read];
        seat->taken = posted->number;
        post(line, task, posted->epoch, posted->bytes, posted->size);
    }
    plain_leave(line);
    return 0;
}

int plain_view(struct plain_seat *seat, uint8_t *out, size_t room, uint64_t *serials, size_t places, uint32_t *epoch) {
    box_take(&seat->shown);
    const struct plain_image *image = &seat->images[seat->shown.read];
    if (room < image->size) return 29;
    memcpy(out, image->data, image->size);
    memcpy(serials, image->serials, (places < DATAGRAMS ? places : DATAGRAMS) * sizeof *serials);
    *epoch = image->epoch;
    return 0;
}

int plain_seat_post(struct plain_seat *seat, uint32_t epoch, const uint8_t *bytes, size_t size, uint64_t *number) {
    const struct plain_image *image = &seat->images[seat->shown.read];
    if (epoch != image->epoch) return 15;
    if (size != image->outputs) return 16;
    struct plain_post *own = &seat->posts[seat->posted.written];
    own->number = *number = ++seat->number, own->epoch = epoch, own->size = (uint32_t)size;
    memcpy(own->bytes, bytes, size);
    box_put(&seat->posted);
    return 0;
}
