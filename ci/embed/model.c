#include "model.h"

#include <string.h>

#include "ignore.h"

static uint32_t number_at(const uint8_t *bytes, int count) {
    uint32_t value = 0;
    for (int i = 0; i < count; i++) value |= (uint32_t)bytes[i] << 8 * i;
    return value;
}

static uint64_t serial_of(const uint8_t *frame) {
    uint64_t serial = 0;
    for (int i = 7; i < 12; i++) serial = serial << 8 | frame[i];
    return serial;
}

/* The datagrams of a frame that can be read, with the bytes at which each one's data begin; how many. */
static size_t heads_of(const uint8_t *frame, struct head *heads, size_t *places) {
    size_t count = 0, at = 16;
    for (bool more = true; more && count < ZANGJULF_OUTCOMES; count++) {
        uint16_t field = (uint16_t)number_at(frame + at + 6, 2);
        heads[count] = (struct head){.command = frame[at], .address = number_at(frame + at + 2, 4), .length = field & 0x7ff};
        places[count] = at + 10;
        more = field & 0x8000;
        at += 12u + heads[count].length;
    }
    return count;
}

static uint8_t task_of(const struct head *head) { return (uint8_t)((head->address >> 24) - 1); }

static uint8_t datagram_of(const struct head *head) { return head->address >> 11 & 15; }

void model_opened(struct model *model, const struct zangjulf *line, const uint8_t *text, size_t size) {
    memset(model, 0, sizeof *model);
    readiness_opened(&model->readiness, line, text, size);
    epochs_opened(&model->epochs, line, text, size);
}

void model_declared(struct model *model, const uint8_t *text, size_t size) {
    readiness_declared(&model->readiness, text, size);
    epochs_declared(&model->epochs, text, size);
}

/* An edit leaves the data of the tasks that it doesn't change; none of them are of the present epoch then. */
static void left_data(struct model *model, uint8_t changed) {
    for (int task = 0; task < ZANGJULF_TASKS; task++)
        for (int d = 0; d < ZANGJULF_DATAGRAMS; d++) {
            struct history *history = &model->tasks[task][d];
            if (changed >> task & 1) history->has_data = false;
            history->is_present = false;
        }
}

/* No frame of register writes can be answered any more. */
static void none_under_way(struct model *model) {
    for (size_t i = 0; i < model->known_count; i++) model->known[i].is_under_way = false;
}

void model_edited(struct model *model, const struct zangjulf *line) {
    size_t left = 0;
    for (size_t i = 0; i < MODEL_SENDINGS; i++) model->sendings[i].is_open = false;
    none_under_way(model);
    left_data(model, epochs_edited(&model->epochs, line));
    for (size_t i = 0; i < model->known_count; i++) {
        uint32_t position;
        if (!zangjulf_position(line, model->known[i].station, &position)) model->known[left++] = model->known[i];
    }
    model->known_count = left;
    readiness_edited(&model->readiness, line);
}

/* The number of the block of a slave that begins at a register, and its bytes. */
static uint8_t number_of(const struct zangjulf *line, const struct head *head, uint8_t *bytes) {
    struct zangjulf_block block;
    uint8_t number = 0;
    while (!zangjulf_block(line, head->station, number, bytes, 16, &block) && block.start != head->start) number++;
    return number;
}

static struct known *known_of(struct model *model, uint16_t station, uint8_t number) {
    for (size_t i = 0; i < model->known_count; i++)
        if (model->known[i].station == station && model->known[i].number == number) return &model->known[i];
    return NULL;
}

void model_lost(struct model *model, uint16_t station) {
    size_t left = 0;
    for (size_t i = 0; i < model->known_count; i++)
        if (model->known[i].station != station) model->known[left++] = model->known[i];
    model->known_count = left;
    model->losses++;
}

void model_cleared(struct model *model, const struct zangjulf *line, uint16_t station) {
    uint32_t position;
    if (!zangjulf_position(line, station, &position)) model_lost(model, station);
    readiness_cleared(&model->readiness, station);
}

void model_unplugged(struct model *model, uint16_t station) { readiness_unplugged(&model->readiness, station); }

/* Register blocks are sent in one frame: of each this is the last write. If a slave was lost since, it takes the place of all before. */
static void wrote(struct model *model, const struct zangjulf *line, struct sending *sending) {
    uint8_t bytes[16];
    if (model->losses_at_write < model->losses) none_under_way(model);
    sending->losses = model->losses_at_write = model->losses;
    for (size_t i = 0; i < sending->count; i++) {
        struct head *head = &sending->heads[i];
        head->station = (uint16_t)head->address, head->start = (uint16_t)(head->address >> 16), head->expected = 1;
        head->number = number_of(line, head, bytes);
        struct known *known = known_of(model, head->station, head->number);
        if (!known && model->known_count < MODEL_BLOCKS) known = &model->known[model->known_count++];
        if (!known) return;
        *known = (struct known){.station = head->station, .number = head->number, .size = (uint8_t)head->length, .serial = sending->serial, .is_under_way = true};
        memcpy(known->bytes, bytes, head->length);
        readiness_wrote(&model->readiness, head->station, head->number, bytes, head->length);
    }
}

void model_began(struct model *model, const uint8_t *tasks, size_t count, uint64_t first_serial) {
    for (size_t i = 0; i < count; i++) model->first_serials[tasks[i]] = first_serial;
}

void model_sent(struct model *model, const struct zangjulf *line, const uint8_t *frame) {
    size_t places[ZANGJULF_OUTCOMES];
    uint64_t serial = serial_of(frame);
    struct sending *sending = &model->sendings[serial % MODEL_SENDINGS];
    memset(sending, 0, sizeof *sending);
    sending->serial = serial, sending->is_open = true;
    sending->count = heads_of(frame, sending->heads, places);
    if (sending->heads[0].command == 5) wrote(model, line, sending);
    else for (size_t i = 0; i < sending->count; i++) {
        struct head *head = &sending->heads[i];
        struct zangjulf_datagram datagram = {0, 0, 0, 0};
        struct history *history = &model->tasks[task_of(head)][datagram_of(head)];
        ignore(zangjulf_datagram(line, task_of(head), datagram_of(head), &datagram));
        head->expected = datagram.expected;
        history->sent = serial, history->was_sent = true;
        history->counters.sent++;
    }
}

/* The sending that a frame answers, or NULL; it is answered then. */
static const struct sending *answered_by(struct model *model, const uint8_t *frame, const struct head *came, size_t count) {
    uint64_t serial = serial_of(frame);
    struct sending *sending = &model->sendings[serial % MODEL_SENDINGS];
    if (!sending->is_open || sending->serial != serial || sending->count != count) return NULL;
    for (size_t i = 0; i < count; i++) {
        const struct head *head = &sending->heads[i];
        if (head->command != came[i].command || head->address != came[i].address || head->length != came[i].length) return NULL;
    }
    sending->is_open = false;
    for (size_t i = 0; i < model->known_count; i++)
        if (model->known[i].serial == serial) model->known[i].is_under_way = false;
    return sending;
}

/* The last write of a block, where that is the one of this sending and no later write took the place of all before; else NULL. */
static struct known *awaited_block(const struct model *model, const struct sending *sending, size_t i) {
    struct known *known = known_of((struct model *)model, sending->heads[i].station, sending->heads[i].number);
    return !known || known->serial != sending->serial || sending->losses < model->losses_at_write ? NULL : known;
}

/* A write was answered well: its block is known. */
static void confirm(struct model *model, struct known *known) {
    known->is_confirmed = true;
    readiness_answered(&model->readiness, known->station, known->number, known->bytes, known->size);
}

/* What an arrival is for a register block that came back with a working counter. */
static struct zangjulf_outcome block_outcome(const struct model *model, const struct sending *sending, size_t i, size_t place, uint16_t got) {
    const struct head *head = &sending->heads[i];
    struct zangjulf_outcome outcome;
    memset(&outcome, 0, sizeof outcome);
    outcome.kind = !awaited_block(model, sending, i) ? ZANGJULF_SENT_AGAIN : got == 1 ? ZANGJULF_BLOCK_WRITTEN : ZANGJULF_BLOCK_MISSED;
    outcome.expected = 1, outcome.got = got;
    outcome.at = (uint16_t)place, outcome.length = head->length;
    outcome.station = head->station, outcome.start = head->start;
    return outcome;
}

/* What a datagram's outcome is; it is counted by `judged`. */
static struct zangjulf_outcome outcome_of(const struct model *model, const struct sending *sending, size_t i, size_t place, uint16_t got) {
    const struct head *head = &sending->heads[i];
    const struct history *history = &model->tasks[task_of(head)][datagram_of(head)];
    bool is_again = history->sent != sending->serial;
    struct zangjulf_outcome outcome;
    memset(&outcome, 0, sizeof outcome);
    outcome.kind = is_again ? ZANGJULF_SENT_AGAIN : got == head->expected ? ZANGJULF_INPUTS : ZANGJULF_WRONG_COUNT;
    outcome.task = task_of(head), outcome.datagram = datagram_of(head);
    outcome.expected = head->expected, outcome.got = got;
    outcome.at = (uint16_t)place, outcome.length = head->length;
    return outcome;
}

/* A datagram of a frame that came is counted; the data of a good one are read from now on. */
static void judged(struct model *model, const struct zangjulf_outcome *outcome, uint64_t serial, const uint8_t *frame) {
    struct history *history = &model->tasks[outcome->task][outcome->datagram];
    if (outcome->kind == ZANGJULF_SENT_AGAIN) history->counters.again++;
    else if (outcome->kind == ZANGJULF_WRONG_COUNT) history->counters.wrong++;
    else {
        history->counters.good++, history->data = serial;
        history->has_data = history->is_present = true;
        memcpy(history->bytes, frame + outcome->at, outcome->length);
    }
}

/* An outcome changes the model: what a block's slave has, or what a task reads. */
static void take_outcome(struct model *model, const struct sending *sending, size_t i, const struct zangjulf_outcome *outcome, const uint8_t *frame) {
    if (sending->heads[i].command != 5) judged(model, outcome, sending->serial, frame);
    else if (outcome->kind == ZANGJULF_BLOCK_WRITTEN) confirm(model, awaited_block(model, sending, i));
}

bool model_arrived(struct model *model, const uint8_t *frame, const struct zangjulf_arrival *arrival, const struct zangjulf_outcome *outcomes,
                   size_t room) {
    struct head came[ZANGJULF_OUTCOMES];
    struct zangjulf_outcome expected[ZANGJULF_OUTCOMES];
    struct zangjulf_arrival wanted = {.serial = serial_of(frame), .kind = ZANGJULF_STALE};
    size_t places[ZANGJULF_OUTCOMES], count = heads_of(frame, came, places);
    const struct sending *sending = answered_by(model, frame, came, count);
    bool is_of_blocks = came[0].command == 5, has_answer = false;
    for (size_t i = 0; sending && i < count; i++) {
        uint16_t got = (uint16_t)number_at(frame + places[i] + came[i].length, 2);
        expected[i] = is_of_blocks ? block_outcome(model, sending, i, places[i], got) : outcome_of(model, sending, i, places[i], got);
        has_answer |= expected[i].kind != ZANGJULF_SENT_AGAIN;
    }
    if (has_answer) wanted.datagrams = (uint16_t)count, wanted.kind = is_of_blocks ? ZANGJULF_OF_BLOCKS : ZANGJULF_OF_TASKS;
    if (memcmp(arrival, &wanted, sizeof wanted)) return false;
    for (size_t i = 0; has_answer && i < count; i++) {
        take_outcome(model, sending, i, &expected[i], frame);
        if (i < room && memcmp(&outcomes[i], &expected[i], sizeof *outcomes)) return false;
    }
    return true;
}

/* How the data of a task compare with its last sending. */
static uint8_t state_of(const struct model *model, uint8_t task, size_t datagrams) {
    size_t current = 0;
    for (size_t d = 0; d < datagrams; d++) {
        const struct history *history = &model->tasks[task][d];
        current += history->has_data && history->data >= model->first_serials[task];
    }
    return current == datagrams ? ZANGJULF_COMPLETE : current ? ZANGJULF_INCOMPLETE : ZANGJULF_NO_DATA;
}

bool model_reads(const struct model *model, const struct zangjulf *line, uint8_t task, const struct zangjulf_image *image, const uint8_t *bytes,
                 const uint64_t *serials, size_t room) {
    static const uint8_t zeros[ZANGJULF_DATA];
    struct zangjulf_image wanted = {.first_serial = model->first_serials[task], .epoch = model->epochs.epoch, .task_epoch = model->epochs.tasks[task],
                                    .size = image->size, .datagrams = image->datagrams, .has = image->has};
    wanted.state = state_of(model, task, image->datagrams);
    if (memcmp(image, &wanted, sizeof wanted)) return false;
    for (size_t d = 0; d < image->datagrams; d++) {
        const struct history *history = &model->tasks[task][d];
        struct zangjulf_datagram datagram;
        if ((image->has >> d & 1) != history->has_data || zangjulf_datagram(line, task, (uint8_t)d, &datagram)) return false;
        if (memcmp(bytes + datagram.offset, history->has_data ? history->bytes : zeros, datagram.length)) return false;
        if (d < room && serials[d] != (history->has_data ? history->data : 0)) return false;
    }
    return image->datagrams == 16 || image->has >> image->datagrams == 0;
}

uint16_t model_present(const struct model *model, uint8_t task) {
    uint16_t has = 0;
    for (int d = 0; d < ZANGJULF_DATAGRAMS; d++)
        if (model->tasks[task][d].is_present) has |= (uint16_t)(1u << d);
    return has;
}

bool model_counts(const struct model *model, uint8_t task, uint8_t datagram, const struct zangjulf_counters *counters) {
    return !memcmp(&model->tasks[task][datagram].counters, counters, sizeof *counters);
}

/* What a slave adds to a datagram's counter: 1 where an active FMMU that reads has logical bytes of it, 2 where one that writes
 * has (ETG.1000.4). */
static unsigned share_of(const struct zangjulf *line, uint16_t station, const struct zangjulf_datagram *datagram) {
    struct zangjulf_block block;
    uint8_t bytes[16];
    unsigned share = 0;
    for (uint8_t number = 0; !zangjulf_block(line, station, number, bytes, sizeof bytes, &block); number++) {
        uint32_t first = number_at(bytes, 4), count = number_at(bytes + 4, 2);
        bool is_fmmu = block.size == 16 && bytes[12] & 1;
        if (is_fmmu && first < datagram->address + datagram->length && datagram->address < first + count) share |= bytes[11] & 3;
    }
    return share;
}

bool model_shares(const struct zangjulf *line, uint8_t task, uint8_t number) {
    struct zangjulf_datagram datagram;
    uint16_t station, share = 0;
    unsigned sum = 0;
    bool is_there = !zangjulf_datagram(line, task, number, &datagram);
    for (uint32_t position = 0; !zangjulf_station(line, position, &station); position++) {
        unsigned answer = zangjulf_expected_of(line, task, number, station, &share);
        if (answer != (is_there ? ZANGJULF_DONE : ZANGJULF_NOTHING)) return false;
        if (is_there && share != share_of(line, station, &datagram)) return false;
        sum += share;
    }
    return !is_there || sum == datagram.expected;
}

/* Whether a block of the line is owed: its slave isn't known to have these bytes. */
static bool is_owed(const void *context, uint16_t station, uint8_t number, const struct zangjulf_block *block, const uint8_t *bytes) {
    const struct known *known = known_of((struct model *)context, station, number);
    return !known || !known->is_confirmed || known->size != block->size || memcmp(known->bytes, bytes, block->size);
}

static bool is_under_way(const struct model *model, uint16_t station, uint8_t number) {
    const struct known *known = known_of((struct model *)model, station, number);
    return known && known->is_under_way;
}

void model_waits(const struct model *model, const struct zangjulf *line, uint8_t task, struct waiting *waiting) {
    readiness_of(&model->readiness, line, task, is_owed, model, waiting);
}

uint8_t model_will_wait(const struct model *model, const struct zangjulf *line) {
    static struct readiness cleared;
    static struct waiting waiting;
    uint8_t waits = 0;
    cleared = model->readiness;
    for (size_t i = 0; i < cleared.declared_count; i++)
        if (cleared.declared[i].has_come) readiness_cleared(&cleared, cleared.declared[i].station);
    for (uint8_t task = 0; task < ZANGJULF_TASKS; task++) {
        readiness_of(&cleared, line, task, is_owed, model, &waiting);
        if (waiting.blocks || waiting.outside) waits |= (uint8_t)(1u << task);
    }
    return waits;
}

bool model_owes(const struct model *model, const struct zangjulf *line) {
    struct zangjulf_owed_block owed;
    struct zangjulf_block block;
    uint32_t index = 0;
    uint16_t station;
    uint8_t bytes[16];
    for (uint32_t position = 0; !zangjulf_station(line, position, &station); position++)
        for (uint8_t number = 0; !zangjulf_block(line, station, number, bytes, sizeof bytes, &block); number++) {
            if (!is_owed(model, station, number, &block, bytes)) continue;
            if (zangjulf_owed_block(line, index++, &owed)) return false;
            if (owed.station != station || owed.start != block.start || owed.size != block.size) return false;
        }
    return zangjulf_owed_block(line, index, &owed) == ZANGJULF_NOTHING;
}

static void put_number(uint8_t *bytes, uint32_t value, int count) {
    for (int i = 0; i < count; i++) bytes[i] = (uint8_t)(value >> 8 * i);
}

/* A register write among others: the datagram's bytes, by ETG.1000.4, 5.4. The one before it is followed by more. */
static size_t put_write(uint8_t *at, uint64_t serial, uint16_t station, const struct zangjulf_block *block, const uint8_t *bytes, uint8_t *before) {
    if (before) before[7] |= 0x80;
    at[0] = 5, at[1] = (uint8_t)serial;
    put_number(at + 2, station, 2), put_number(at + 4, block->start, 2);
    put_number(at + 6, (uint32_t)block->size, 2), put_number(at + 8, 0, 2);
    memcpy(at + 10, bytes, block->size);
    put_number(at + 10 + block->size, 0, 2);
    return 12 + block->size;
}

size_t model_writes(const struct model *model, const struct zangjulf *line, uint64_t serial, bool further, uint8_t *frame, size_t *blocks) {
    struct zangjulf_block block;
    uint16_t station;
    uint8_t bytes[16], *before = NULL;
    size_t size = 0;
    bool is_full = false;
    *blocks = 0;
    for (uint32_t position = 0; !is_full && !zangjulf_station(line, position, &station); position++)
        for (uint8_t number = 0; !is_full && !zangjulf_block(line, station, number, bytes, sizeof bytes, &block); number++) {
            if (!is_owed(model, station, number, &block, bytes) || (further && is_under_way(model, station, number))) continue;
            is_full = 2 + size + 12 + block.size > 1500;
            if (is_full) continue;
            uint8_t *at = frame + 16 + size;
            size += put_write(at, serial, station, &block, bytes, before);
            before = at, ++*blocks;
        }
    if (!size) return 0;
    memset(frame, 255, 6), frame[6] = 2, frame[12] = 0x88, frame[13] = 0xa4;
    for (int i = 0; i < 5; i++) frame[7 + i] = (uint8_t)(serial >> 8 * (4 - i));
    put_number(frame + 14, (uint32_t)size + 4096, 2);
    size_t whole = 16 + size < 60 ? 60 : 16 + size;
    memset(frame + 16 + size, 0, whole - 16 - size);
    return whole;
}
