#include <string.h>

#include "drawn_lines.h"
#include "ignore.h"
#include "judge.h"
#include "words.h"

void writing(struct line *line, bool was_open) {
    size_t room = below(3) ? 60 : below(70);
    struct zangjulf_write write = {0};
    uint64_t serial = 0;
    uint8_t *out = out_room(room);
    ignore(zangjulf_next_serial(&line->handle, &serial));
    unsigned number = zangjulf_next_write(&line->handle, out, room, &write);
    expect(number, was_open, "\0\x12\x13\x1d");
    if (number) expect_untouched(out, room, number);
    else model_sent(&line->model, &line->handle, out), keep(line, out, write.size);
    if (number == ZANGJULF_ROOM && (write.size != 60 || room >= 60)) fail("a write's room", number);
    if (!is_scripted(line, number)) return;
    say(line, "write\n");
    print_write(line->answers, number, serial, out, write.size);
}

/* There is no command for it: what is written of the line ends with a frame of register writes. */
void writing_all(struct line *line, bool was_open, bool further) {
    static uint8_t wanted[ZANGJULF_FRAME];
    size_t room = below(3) ? ZANGJULF_FRAME : some_length(ZANGJULF_FRAME), size = 0, owed = 0, blocks = 0;
    struct zangjulf_writes writes = {0, 0};
    uint64_t serial = 0;
    uint8_t *out = out_room(room);
    ignore(zangjulf_next_serial(&line->handle, &serial));
    if (was_open) owed = model_writes(&line->model, &line->handle, serial, false, wanted, &blocks);
    if (was_open) size = model_writes(&line->model, &line->handle, serial, further, wanted, &blocks);
    unsigned number = (further ? zangjulf_further_writes : zangjulf_next_writes)(&line->handle, out, room, &writes);
    expect(number, was_open, further ? "\0\x12\x13\x1c\x1d\x25" : "\0\x12\x13\x1d");
    if (number) expect_untouched(out, room, number);
    if (number == ZANGJULF_ROOM && (writes.size != size || room >= size || writes.blocks)) fail("the room of register writes", number);
    if (was_open && (number == ZANGJULF_NOTHING_OWED) != !owed) fail("register writes of nothing", number);
    if (was_open && (number == ZANGJULF_UNDER_WAY) != (owed && !size)) fail("register writes that are under way", number);
    if (number) return;
    if (writes.size != size || writes.blocks != blocks || memcmp(out, wanted, size)) fail("another frame of register writes than the model's", number);
    expect_untouched(out + size, room - size, number);
    memcpy(wanted, out, size);
    model_sent(&line->model, &line->handle, wanted), keep(line, wanted, size), end_script(line);
}

uint8_t ready_by_model(const struct line *line, struct waiting *waits) {
    uint8_t ready = 0;
    for (uint8_t task = 0; task < ZANGJULF_TASKS; task++) {
        model_waits(&line->model, &line->handle, task, &waits[task]);
        if (!waits[task].blocks && !waits[task].outside) ready |= (uint8_t)(1u << task);
    }
    return ready;
}

/* The ready tasks, and the slaves that hold one up: in the order of the model, where it knows the declared order. */
void waiting(struct line *line, bool was_open) {
    static struct waiting waits[ZANGJULF_TASKS];
    uint8_t mask = 0, task = (uint8_t)below(9);
    uint16_t station = 0;
    unsigned number = zangjulf_ready(&line->handle, &mask);
    expect(number, was_open, "\0");
    if (!was_open) memset(waits, 0, sizeof waits);
    if (was_open && mask != ready_by_model(line, waits)) fail("other ready tasks than the model's", number);
    const struct waiting *own = &waits[task % ZANGJULF_TASKS];
    size_t count = was_open && task < ZANGJULF_TASKS ? own->holder_count : 0, sure = line->model.readiness.is_ordered ? count : own->holders_in_line;
    for (uint32_t i = 0; i <= count; i++) {
        number = zangjulf_held_by(&line->handle, task, i, &station);
        expect(number, was_open, i < count ? "\0" : "\x64");
        if (i < sure && i < count && station != own->holders[i]) fail("another slave than the model's holds a task up", number);
    }
}

/* There is no command for it: what is written of the line ends with a slave of the line that is cleared. The program's answers don't hang
 * on slaves outside the line. */
void clearing(struct line *line, bool was_open) {
    uint32_t position;
    uint16_t station = some_station();
    unsigned where = zangjulf_position(&line->handle, station, &position);
    bool is_unplugged = below(2);
    unsigned number = is_unplugged ? zangjulf_unplugged(&line->handle, station) : zangjulf_cleared(&line->handle, station);
    expect(number, was_open, is_unplugged ? "\0\x02\x05" : "\0\x05");
    unsigned wanted = where == ZANGJULF_UNKNOWN_STATION ? where : !is_unplugged || where == ZANGJULF_ABSENT ? 0 : ZANGJULF_ALREADY_PRESENT;
    if (was_open && number != wanted) fail("a slave that isn't where it is", number);
    if (!number && is_unplugged) model_unplugged(&line->model, station);
    if (!number && !is_unplugged) model_cleared(&line->model, &line->handle, station);
    if (!number && where == ZANGJULF_DONE) end_script(line);
    if (was_open && !model_owes(&line->model, &line->handle)) fail("other owed blocks than the model's", number);
}

/* There is no command for it: what is written of the line ends with a slave that lost its registers. */
void losing(struct line *line, bool was_open) {
    uint32_t position, epoch = 0, after = 0;
    uint64_t serial = 0, next = 0;
    uint16_t station = some_station();
    unsigned where = zangjulf_position(&line->handle, station, &position);
    ignore(zangjulf_epoch(&line->handle, &epoch)), ignore(zangjulf_next_serial(&line->handle, &serial));
    unsigned number = zangjulf_slave_lost(&line->handle, station);
    expect(number, was_open, "\0\x05\x06");
    if (number != where) fail("a slave that isn't where it is", number);
    ignore(zangjulf_epoch(&line->handle, &after)), ignore(zangjulf_next_serial(&line->handle, &next));
    if (after != epoch || next != serial) fail("a slave that lost more than its blocks", number);
    if (!number) model_lost(&line->model, station), end_script(line);
    if (was_open && !model_owes(&line->model, &line->handle)) fail("other owed blocks than the model's", number);
}
