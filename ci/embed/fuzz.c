/* Draws calls of the C library: any order, any numbers, any bytes, open and closed handles, slices of any length that end where
 * a page that can't be touched begins, refused growths. It ends with status 1 at an answer that include/zangjulf.h doesn't
 * allow, at a slice that was written though the call was refused, at an outcome, an age, a counter, an owed block, a frame of
 * register writes, a task that waits or will wait, data, their state or a task's epoch that isn't the plain model's (model.h), at an
 * image, outputs or a post of a seat that isn't its model's (seated.h), at bits that differ from bits taken one by one, and where memory
 * is live once all handles are closed.
 *
 *     fuzz PROJECT CALLS SEED [FOLDER [declare]]
 *
 * PROJECT is a text, which a line `%%` may end. With FOLDER each opened line leaves two files there: N.in is the script of
 * those calls for which the program hotline has a command (docs/use/PROGRAM.md), and N.out what they were answered, in the
 * program's words. A call that changes nothing and has no command is left out, as one with a short slice, a refused growth or
 * a question; so the rest must be what the program prints, whatever was called in between. The program sends no task while a block is
 * owed, and the library those that are ready: where they differ the script ends. Posts, for which there is no command, are of zeros
 * there, as if none had been made; a group is declared there only with `declare`. */
#define _GNU_SOURCE
#include <stdio.h>
#include <stdlib.h>
#include <string.h>

#include "drawn_lines.h"
#include "growths.h"
#include "ignore.h"
#include "judge.h"
#include "words.h"

#define LINES 3

static struct guarded texts, counts, words;
static struct line lines[LINES];
static bool declares;

/* Whether two handles are the same. */
static bool is_same_handle(const struct zangjulf *a, const struct zangjulf *b) { return a->mark == b->mark && a->at == b->at; }

/* A line is opened, or refused: an open one stays as it is. */
static void opening(struct line *line) {
    uint8_t task = 0;
    size_t size = below(3) ? text_size : below(text_size);
    uint8_t *moved = last(&ins, size);
    struct zangjulf before = line->handle;
    struct zangjulf_options options = {sizeof options, (uint32_t)below(MOST_LOOKERS + 1)};
    if (!below(20)) options.size = (uint32_t)below(16);
    if (!below(20)) options.lookers = ZANGJULF_LOOKERS + 1 + (uint32_t)below(3);
    bool is_misused = before.mark || options.size != sizeof options || options.lookers > ZANGJULF_LOOKERS;
    memcpy(moved, text, size);
    if (!below(3) && size) moved[below(size)] = (uint8_t)draw();
    if (size) moved[size - 1] = '\n';
    unsigned number = zangjulf_open(&line->handle, &options, moved, size, &task);
    bool is_fault = number == ZANGJULF_TOO_MANY_DATAGRAMS || number == ZANGJULF_MEMORY || (number > 200 && number <= ZANGJULF_PROJECT_AREA_TOO_BIG);
    answers[number]++;
    if ((number == ZANGJULF_MISUSED) != is_misused) fail("an opening that is misused", number);
    if (number ? !is_same_handle(&before, &line->handle) : !line->handle.mark) fail("a handle after an opening", number);
    if (is_misused) return;
    if (number && !is_fault) fail("an opening", number);
    end_script(line);
    line->owner.lookers = options.lookers;
    model_opened(&line->model, &line->handle, moved, size);
    begin_script(line, moved, size, number, task);
}

static void closing(struct line *line) {
    bool was_open = line->handle.mark;
    if (was_open) owner_closes(&line->handle, &line->owner, &line->model.epochs);
    unsigned number = zangjulf_close(&line->handle);
    if (number != (was_open ? ZANGJULF_DONE : ZANGJULF_CLOSED) || line->handle.mark) fail("a closing", number);
    end_script(line);
}

static void asking(struct line *line, bool was_open) {
    uint32_t word = 0;
    uint64_t serial = 0;
    expect(zangjulf_epoch(&line->handle, &word), was_open, "\0");
    expect(zangjulf_owed(&line->handle, &word), was_open, "\0");
    expect(zangjulf_next_serial(&line->handle, &serial), was_open, "\0");
}

static void posting(struct line *line, bool was_open) {
    struct zangjulf_image_sizes sizes = {0, 0};
    uint8_t task = (uint8_t)below(9);
    uint32_t epoch = some_epoch(&line->model.epochs, task);
    ignore(zangjulf_image_sizes(&line->handle, task, &sizes));
    size_t size = below(4) ? sizes.outputs : below(40);
    uint8_t *in = last(&ins, size);
    for (size_t i = 0; i < size; i++) in[i] = (uint8_t)draw();
    if (folder) memset(in, 0, size);
    unsigned number = zangjulf_post(&line->handle, task, epoch, in, size);
    expect(number, was_open, "\0\x08\x0f\x10");
    if (was_open && number != epochs_post(&line->model.epochs, task, epoch, size, sizes.outputs)) fail("another answer to a post than the model's", number);
}

/* The library waits for slaves outside the line, and the program doesn't: they are unplugged. */
static void unplug_holders(struct line *line, uint8_t task) {
    uint16_t station;
    while (!zangjulf_held_by(&line->handle, task, 0, &station)) {
        if (zangjulf_unplugged(&line->handle, station)) fail("a slave that isn't outside the line", 0);
        model_unplugged(&line->model, station);
    }
}

/* What a sending said of the task that waits, and of its bytes. */
static void expect_sent(const struct zangjulf_sent *sent, unsigned number, const struct waiting *first, uint8_t task, size_t room, uint64_t serial) {
    struct zangjulf_sent wanted;
    memset(&wanted, number ? 0x77 : 0, sizeof wanted);
    if (number == ZANGJULF_WAITS) wanted.waits = (struct zangjulf_waits){first->blocks, first->outside, task, {0}};
    if (number == ZANGJULF_ROOM || !number) wanted.size = sent->size;
    if (!number) wanted.frames = sent->frames, wanted.first_serial = serial;
    if (memcmp(sent, &wanted, sizeof wanted)) fail("another sending than the model's", number);
    if (number == ZANGJULF_ROOM && sent->size <= room) fail("a sending's room", number);
}

/* The table of a sending has its frames, one after another, as many as there is room for. */
static void expect_table(const struct zangjulf_frame *table, size_t room, const struct zangjulf_sent *sent, const uint8_t *out) {
    uint32_t at = 0;
    for (uint32_t i = 0; i < (sent->frames < room ? sent->frames : room); at += table[i++].size)
        if (table[i].offset != at || table[i].size != zangjulf_frame_size(out + at)) fail("where a frame lies", 0);
    for (size_t i = sent->frames; i < room; i++)
        if (table[i].offset != 0x77777777 || table[i].size != 0x77777777) fail("a frame that isn't there", 0);
}

/* The frames that were sent, one after another. */
static void take_frames(struct line *line, const uint8_t *out, const struct zangjulf_sent *sent) {
    static uint8_t copy[ZANGJULF_FRAME];
    const uint8_t *frame = out;
    for (size_t i = 0; i < sent->frames; i++, frame += zangjulf_frame_size(frame)) {
        memcpy(copy, frame, zangjulf_frame_size(frame));
        model_sent(&line->model, &line->handle, copy);
        keep(line, copy, zangjulf_frame_size(frame));
    }
    if (frame != out + sent->size) fail("frames and their bytes", 0);
}

/* Writes a sending as a command, if the program answers it as the library did. */
static void print_sent(struct line *line, const uint8_t *tasks, size_t count, unsigned number, uint32_t owed, uint64_t serial, const uint8_t *out,
                       const struct zangjulf_sent *sent) {
    if (!number && owed) end_script(line);
    if (!is_scripted(line, number) || (number == ZANGJULF_WAITS && !owed)) return;
    say(line, "send");
    for (size_t i = 0; i < count; i++) fprintf(line->script, " %u", tasks[i]);
    fprintf(line->script, "\n");
    if (number == ZANGJULF_WAITS || (number == ZANGJULF_SERIALS_SPENT && owed)) print_unprogrammed(line->answers, owed);
    else print_sending(line->answers, number, serial, out, sent);
}

/* Draws tasks to send; whether each is one, and none is twice. */
static uint8_t *some_tasks(size_t *count, bool *is_task, bool *is_misused) {
    *count = below(4) ? 1 + below(2) : below(10);
    uint8_t *tasks = last(&ins, *count);
    unsigned seen = 0;
    *is_task = true, *is_misused = !*count || *count > ZANGJULF_TASKS;
    for (size_t i = 0; i < *count; i++) {
        tasks[i] = below(6) ? (uint8_t)((i + below(2)) % 8) : (uint8_t)below(9);
        *is_task &= tasks[i] < ZANGJULF_TASKS, *is_misused |= seen >> tasks[i] & 1, seen |= 1u << tasks[i];
    }
    return tasks;
}

static void sending(struct line *line, bool was_open) {
    static struct waiting waits[ZANGJULF_TASKS];
    bool is_task, is_misused;
    size_t count, room = below(8) ? some_length(30000) : ZANGJULF_FRAMES, entries = below(4), first;
    uint8_t *tasks = some_tasks(&count, &is_task, &is_misused), mask = was_open ? ready_by_model(line, waits) : 0;
    struct zangjulf_frame table[4];
    struct zangjulf_sent sent;
    uint64_t serial = 0;
    uint32_t owed = 0;
    for (first = 0; first < count && is_task && mask >> tasks[first] & 1;) first++;
    bool is_ready = first == count;
    ignore(zangjulf_next_serial(&line->handle, &serial)), ignore(zangjulf_owed(&line->handle, &owed));
    if (folder && was_open && is_ready && owed && below(500)) return; /* the script would end */
    uint8_t *out = out_room(room);
    memset(&sent, 0x77, sizeof sent), memset(table, 0x77, sizeof table);
    unsigned number = zangjulf_send(&line->handle, tasks, count, out, room, table, entries, &sent);
    expect(number, was_open, "\0\x08\x24\x13\x1d\xfe");
    if (number) expect_untouched(out, room, number);
    if (was_open && (number == ZANGJULF_MISUSED) != is_misused) fail("tasks that can't be sent together", number);
    if (was_open && !is_misused && (number == ZANGJULF_NO_SUCH_TASK) != !is_task) fail("a task that there isn't", number);
    if (was_open && !is_misused && is_task && (number == ZANGJULF_WAITS) != !is_ready) fail("a task that waits", number);
    expect_sent(&sent, number, &waits[is_task && first < count ? tasks[first] : 0], is_task && first < count ? tasks[first] : 0, room, serial);
    if (number && (table[0].size != 0x77777777 || table[0].offset != 0x77777777)) fail("the table of a refused sending", number);
    print_sent(line, tasks, count, number, owed, serial, out, &sent);
    if (number == ZANGJULF_WAITS && folder && !owed) unplug_holders(line, tasks[first]);
    if (number) return;
    expect_table(table, entries, &sent, out);
    model_began(&line->model, tasks, count, serial);
    take_frames(line, out, &sent);
}

static void arriving(struct line *line, bool was_open) {
    const struct line *from = below(8) ? line : &lines[below(LINES)];
    size_t i = below(3) ? from->last_frame : below(FRAMES), size = from->frame_sizes[i];
    size_t room = line->script ? ZANGJULF_OUTCOMES : some_length(ZANGJULF_OUTCOMES);
    if (!below(10)) size = below(size + 1);
    uint8_t *in = last(&ins, size);
    memcpy(in, from->frames[i], size);
    if (!below(6) && size) in[below(size)] = (uint8_t)draw();
    struct zangjulf_outcome *outcomes = memset(last(&words, room * sizeof *outcomes), 0x77, room * sizeof *outcomes);
    struct zangjulf_arrival arrival, as_before;
    memset(&arrival, 0x77, sizeof arrival), memset(&as_before, 0x77, sizeof as_before);
    unsigned number = zangjulf_arrive(&line->handle, in, size, outcomes, room, &arrival);
    expect(number, was_open, "\0\x14\x15\x16\x17\x18\x19\x1a\x1b");
    if (number && memcmp(&arrival, &as_before, sizeof arrival)) fail("a refused arrival", number);
    if (!number && !model_arrived(&line->model, in, &arrival, outcomes, room)) fail("another arrival than the model's", number);
    for (size_t k = number ? 0 : arrival.datagrams; k < room; k++)
        if (outcomes[k].kind != 0x77 || outcomes[k].start != 0x7777) fail("an outcome of no datagram", number);
    if (!size || !is_scripted(line, number)) return;
    say(line, "arrive ");
    print_hex(line->script, in, size);
    fprintf(line->script, "\n");
    print_arrival(line->answers, number, &arrival, outcomes);
}

static void reading(struct line *line, bool was_open) {
    size_t room = some_length(ZANGJULF_IMAGE), many = some_length(16);
    uint64_t *serials = (void *)last(&counts, many * sizeof *serials);
    struct zangjulf_image image = {0};
    struct zangjulf_image_sizes sizes = {0, 0};
    uint8_t *out = out_room(room), task = (uint8_t)below(9);
    unsigned number = zangjulf_read(&line->handle, task, out, room, serials, many, &image);
    expect(number, was_open, "\0\x08\x1d");
    ignore(zangjulf_image_sizes(&line->handle, task, &sizes));
    if (number) expect_untouched(out, room, number);
    if (!number && image.size != (uint32_t)sizes.outputs + sizes.inputs) fail("the bytes of an image", number);
    if (!number && !model_reads(&line->model, &line->handle, task, &image, out, serials, many)) fail("another image than the model's", number);
    if (!number) expect_untouched(out + image.size, room - image.size, number);
    if (!is_scripted(line, number)) return;
    say(line, "read %u\n", task);
    if (!number) image.has = model_present(&line->model, task);
    print_image(line->answers, number, &line->handle, task, &image, out);
}

static void previewing(struct line *line, bool was_open) {
    size_t room = some_length(ZANGJULF_FRAME), size = 0;
    uint8_t *out = out_room(room), task = (uint8_t)below(9), datagram = (uint8_t)below(3);
    uint64_t serial = 0;
    ignore(zangjulf_next_serial(&line->handle, &serial));
    unsigned number = zangjulf_preview(&line->handle, task, datagram, out, room, &size);
    expect(number, was_open, "\0\x64\x1d");
    if (number) expect_untouched(out, room, number);
    if (!is_scripted(line, number)) return;
    say(line, "show %u %u\n", task, datagram);
    print_preview(line->answers, number, task, serial, out, size);
}

/* The places of a list of variables are those of each. */
static void tabling(struct line *line, bool was_open) {
    uint32_t variables[4];
    size_t count = below(5), room = below(5);
    struct zangjulf_place places[5], wanted;
    memset(places, 0x77, sizeof places);
    for (size_t i = 0; i < count; i++) variables[i] = below(3) ? (uint32_t)below(130) : (uint32_t)draw();
    unsigned number = zangjulf_places(&line->handle, variables, count, places, room);
    expect(number, was_open, "\0\xfe");
    if (was_open && (number == ZANGJULF_MISUSED) != (room < count)) fail("the room of places", number);
    for (size_t i = 0; i < 5; i++) {
        memset(&wanted, !number && i < count ? 0 : 0x77, sizeof wanted);
        if (!number && i < count) ignore(zangjulf_place(&line->handle, variables[i], &wanted));
        if (memcmp(&places[i], &wanted, sizeof wanted)) fail("another place than the variable's", number);
    }
}

static void looking(struct line *line, bool was_open) {
    struct zangjulf *handle = &line->handle;
    struct zangjulf_place place;
    struct zangjulf_datagram datagram;
    struct zangjulf_image_sizes sizes;
    struct zangjulf_block block = {0, 0};
    uint16_t station = some_station();
    uint32_t position, variable = below(3) ? (uint32_t)below(130) : (uint32_t)draw();
    size_t room = some_length(16);
    uint8_t *out = out_room(room);
    unsigned number = zangjulf_place(handle, variable, &place);
    expect(number, was_open, "\0\x64");
    if (is_scripted(line, number)) {
        say(line, "place %u\n", variable);
        print_place(line->answers, number, variable, &place);
    }
    expect(zangjulf_datagram(handle, (uint8_t)below(9), (uint8_t)below(17), &datagram), was_open, "\0\x64");
    expect(zangjulf_image_sizes(handle, (uint8_t)draw(), &sizes), was_open, "\0");
    expect(zangjulf_position(handle, station, &position), was_open, "\0\x05\x06");
    number = zangjulf_block(handle, station, (uint8_t)below(6), out, room, &block);
    expect(number, was_open, "\0\x64\x1d");
    if (number) expect_untouched(out, room, number);
    if (is_scripted(line, ZANGJULF_DONE)) {
        say(line, "regs %u\n", station);
        print_blocks(line->answers, handle, station);
        say(line, "layout\n");
        print_layout(line->answers, handle);
    }
    expect(zangjulf_station(handle, (uint32_t)below(9), &station), was_open, "\0\x64");
    tabling(line, was_open);
}

/* What the model knows, and the library says of itself. */
static void counting(struct line *line, bool was_open) {
    struct zangjulf_counters counters;
    uint8_t task = (uint8_t)below(9), datagram = (uint8_t)below(4);
    unsigned number = zangjulf_counters(&line->handle, task, datagram, &counters);
    expect(number, was_open, "\0\x64");
    if (!number && !model_counts(&line->model, task, datagram, &counters)) fail("other counters than the model's", number);
    if (was_open && !model_owes(&line->model, &line->handle)) fail("other owed blocks than the model's", number);
    uint16_t station = some_station(), share;
    uint32_t position;
    number = zangjulf_expected_of(&line->handle, task, datagram, station, &share);
    expect(number, was_open, "\0\x64");
    if (!number && zangjulf_position(&line->handle, station, &position)) fail("a share of a slave that isn't in the line", number);
    if (was_open && !model_shares(&line->handle, task, datagram)) fail("other shares than the model's", number);
}

/* A number in bits of bytes, one bit after another. */
static uint64_t bits_of(const uint8_t *bytes, size_t bit, size_t bits) {
    uint64_t value = 0;
    for (size_t i = 0; i < bits; i++) value |= (uint64_t)(bytes[(bit + i) / 8] >> (bit + i) % 8 & 1) << i;
    return value;
}

/* The value of a variable in any bytes, and one that is put there, for an epoch that is one of its task's or isn't. */
static void value_of(struct line *line, bool was_open, uint8_t *bytes, size_t size) {
    struct zangjulf_place place = {0};
    uint32_t variable = (uint32_t)below(130), epoch = 0;
    uint64_t value = 0;
    bool is_there = !zangjulf_place(&line->handle, variable, &place);
    if (was_open) epoch = some_epoch(&line->model.epochs, place.task);
    bool fits = is_there && epochs_fit(&line->model.epochs, place.task, epoch);
    unsigned number = zangjulf_get_value(&line->handle, variable, epoch, bytes, size, &value);
    unsigned short_of = (size_t)place.image_bit + place.bits > 8 * size ? ZANGJULF_ROOM : ZANGJULF_DONE;
    expect(number, was_open, "\0\x64\x0f\x1d");
    if (was_open && number != (!is_there ? ZANGJULF_NOTHING : !fits ? ZANGJULF_STALE_POST : short_of)) fail("the epoch of a value", number);
    if (!number && value != bits_of(bytes, place.image_bit, place.bits)) fail("a value", number);
    uint64_t most = place.bits < 64 ? ((uint64_t)1 << place.bits) - 1 : UINT64_MAX, put = below(4) ? ~value & most : draw();
    unsigned wanted = !is_there ? ZANGJULF_NOTHING : !fits ? ZANGJULF_STALE_POST : place.is_input ? ZANGJULF_IS_INPUT : put > most ? ZANGJULF_TOO_WIDE : short_of;
    number = zangjulf_put_value(&line->handle, variable, epoch, put, bytes, size);
    expect(number, was_open, "\0\x64\x0f\x69\x6a\x1d");
    if (was_open && number != wanted) fail("a value that is put", number);
    if (!number && bits_of(bytes, place.image_bit, place.bits) != put) fail("a value that wasn't put", number);
}

/* Bits of any bytes, and values of variables, beside those that are taken bit by bit. */
static void bits(struct line *line, bool was_open) {
    size_t size = below(24), bit = below(200), count = below(66), run = count && count < 65 && bit + count <= 8 * size;
    uint8_t *bytes = last(&ins, size), before[24];
    for (size_t i = 0; i < size; i++) before[i] = bytes[i] = (uint8_t)draw();
    uint64_t value = 0, put = count && count < 64 && below(8) ? draw() % ((uint64_t)1 << count) : draw();
    unsigned number = zangjulf_get_bits(bytes, size, bit, (uint8_t)count, &value);
    if (number != (run ? ZANGJULF_DONE : ZANGJULF_MISUSED) || (run && value != bits_of(before, bit, count))) fail("bits", number);
    number = zangjulf_put_bits(bytes, size, bit, (uint8_t)count, put);
    bool is_wide = run && count < 64 && put >> count;
    if (number != (!run ? ZANGJULF_MISUSED : is_wide ? ZANGJULF_TOO_WIDE : ZANGJULF_DONE)) fail("bits that are put", number);
    for (size_t i = 0; i < 8 * size; i++) {
        bool is_new = !number && i >= bit && i < bit + count;
        if ((bytes[i / 8] >> i % 8 & 1) != (is_new ? (int)(put >> (i - bit) & 1) : before[i / 8] >> i % 8 & 1)) fail("a bit beside", number);
    }
    value_of(line, was_open, bytes, size);
}

/* What an edit was drawn to be. */
struct edit {
    unsigned kind;
    uint16_t alias, station;
    uint8_t area, task;
    const uint16_t *pdos;
    size_t count, size;
    const uint8_t *text;
};

static unsigned asked_for(struct line *line, struct edit *edit, bool asks, struct zangjulf_cost *cost) {
    struct zangjulf *handle = &line->handle;
    switch (edit->kind) {
    case 0: return zangjulf_connect(handle, edit->alias, asks, cost);
    case 1: return zangjulf_disconnect(handle, edit->alias, asks, cost);
    case 2: return zangjulf_remap(handle, edit->station, edit->area, edit->pdos, edit->count, asks, cost);
    case 3: return zangjulf_move_area(handle, edit->station, edit->area, edit->task, asks, cost);
    default: return zangjulf_declare(handle, edit->text, edit->size, asks, cost);
    }
}

static void print_edited(struct line *line, const struct edit *edit, unsigned number, const struct zangjulf_cost *cost) {
    switch (edit->kind) {
    case 0: say(line, "connect %u\n", edit->alias); break;
    case 1: say(line, "disconnect %u\n", edit->alias); break;
    case 2:
        say(line, "remap %u %u", edit->station, edit->area);
        for (size_t i = 0; i < edit->count; i++) fprintf(line->script, " %u", edit->pdos[i]);
        fprintf(line->script, "\n");
        break;
    case 3: say(line, "move %u %u %u\n", edit->station, edit->area, edit->task); break;
    default:
        say(line, "declare\n");
        fwrite(edit->text, 1, edit->size, line->script);
        fprintf(line->script, "%%%%\n");
        print_declaration(line->answers, number, cost);
        return;
    }
    print_edit_answer(line->answers, number, cost);
}

/* An edit asked for and then carried out: unless a growth was refused both answer the same. */
static void editing(struct line *line, bool was_open) {
    struct edit edit = {.kind = (unsigned)below(5), .alias = some_alias(), .station = some_station(), .area = (uint8_t)below(4), .task = (uint8_t)below(9)};
    edit.count = below(4);
    uint16_t *pdo = (void *)last(&words, edit.count * sizeof *pdo);
    for (size_t i = 0; i < edit.count; i++) pdo[i] = some_pdo();
    edit.pdos = pdo;
    edit.text = some_group(&texts, &edit.size);
    struct zangjulf_cost would = {0}, cost = {0};
    uint32_t before = 0, epoch = 0;
    ignore(zangjulf_epoch(&line->handle, &before));
    unsigned asked = asked_for(line, &edit, true, &would);
    ignore(zangjulf_epoch(&line->handle, &epoch));
    if (epoch != before) fail("an edit that was only asked for", asked);
    bool is_left_out = edit.kind == 4 && folder && !declares;
    unsigned number = asked_for(line, &edit, is_left_out, &cost);
    const char *allowed = "\0\x01\x02\x03\x04\x05\x06\x07\x08\x09\x0a\x0b\x0c\x0d\x1c";
    expect(number, was_open, edit.kind == 4 ? "\0\x0d\x1c\x1f\x20\x21\x22\x23\xc9\xca\xcb\xcc\xcd\xce\xcf\xd0\xd1\xd2\xd4" : allowed);
    ignore(zangjulf_epoch(&line->handle, &epoch));
    if (was_open && epoch != before + (!number && !is_left_out)) fail("an edit's epoch", number);
    bool has_memory = asked != ZANGJULF_MEMORY && number != ZANGJULF_MEMORY;
    if (has_memory && (asked != number || memcmp(&would, &cost, sizeof would))) fail("what an edit was told to do", number);
    if (is_left_out) return;
    if (!number && edit.kind == 4) model_declared(&line->model, edit.text, edit.size);
    if (!number) model_edited(&line->model, &line->handle);
    if (!number && cost.waits != model_will_wait(&line->model, &line->handle)) fail("other tasks than the model's will wait", cost.waits);
    if (is_scripted(line, number)) print_edited(line, &edit, number, &cost);
}

static void call_once(struct line *line) {
    bool was_open = line->handle.mark;
    left = below(12) ? -1 : (long)below(6);
    switch (below(was_open ? 2000 : 20) ? below(14) : 14) {
    case 10: case 11: case 12: case 13: draw_seat_call(&line->handle, &line->owner, &line->model.epochs, folder); break;
    case 0:
        if (below(folder ? 150 : 3)) call = "telling", asking(line, was_open);
        else if (below(2)) call = "clearing", clearing(line, was_open);
        else call = "slave_lost", losing(line, was_open);
        break;
    case 1: call = "post"; posting(line, was_open); break;
    case 2: case 3:
        if (below(folder ? 1500 : 3)) call = "next_write", writing(line, was_open);
        else if (below(2)) call = "next_writes", writing_all(line, was_open, false);
        else call = "further_writes", writing_all(line, was_open, true);
        break;
    case 4: case 8:
        if (below(4)) call = "send", sending(line, was_open);
        else call = "bits", bits(line, was_open);
        break;
    case 5: case 6: call = "arrive"; arriving(line, was_open); break;
    case 7: call = "read"; reading(line, was_open); break;
    case 9:
        if (!below(3)) call = "edit", editing(line, was_open);
        else if (below(2)) call = "looking", looking(line, was_open);
        else if (below(2)) call = "counting", counting(line, was_open);
        else if (below(2)) call = "waiting", waiting(line, was_open);
        else call = "preview", previewing(line, was_open);
        break;
    default:
        if (was_open ? !below(4) : below(4)) call = "open", opening(line);
        else call = "close", closing(line);
    }
}

int main(int count, char **arguments) {
    if (count < 4 || count > 6 || !read_project(arguments[1])) return 2;
    folder = count > 4 ? arguments[4] : NULL;
    declares = count > 5 && !strcmp(arguments[5], "declare");
    texts = guard(1 << 16), outs = guard(ZANGJULF_FRAMES), ins = guard(1 << 16), counts = guard(PAGE), words = guard(PAGE);
    begin_draws(strtoull(arguments[3], NULL, 0));
    unsigned long most = strtoul(arguments[2], NULL, 0);
    long before = live;
    for (calls = 0; calls < most; calls++) call_once(&lines[below(LINES)]);
    left = -1;
    for (int i = 0; i < LINES; i++) closing(&lines[i]);
    close_seats();
    if (live != before) fail("memory is live after the last close", (unsigned)(live - before));
    printf("fuzz: %lu calls drawn, %lu of them written as commands; answers:", calls, commands);
    for (unsigned i = 0; i < 256; i++)
        if (answers[i]) printf(" %u: %lu", i, answers[i]);
    printf("\n");
    return 0;
}
