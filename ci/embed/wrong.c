/* Wrong libraries: linked in front of the library with --wrap of the call that is wrong, and its name defined. The drawn calls
 * must find each, by themselves or beside what the program prints. */
#include <stdlib.h>

#include "zangjulf.h"

#ifdef WRONG_place /* a bit beside its place */
uint8_t __real_zangjulf_place(const struct zangjulf *handle, uint32_t variable, struct zangjulf_place *place);
uint8_t __wrap_zangjulf_place(const struct zangjulf *handle, uint32_t variable, struct zangjulf_place *place) {
    unsigned number = __real_zangjulf_place(handle, variable, place);
    if (!number) place->bit++;
    return (uint8_t)number;
}
#endif

/* another byte in an image, an age of another sending, a datagram that has data though it has none; a task's epoch that each edit raises;
 * data that are gone after an edit that doesn't change the task; old data that are complete */
#ifdef WRONG_read
uint8_t __real_zangjulf_read(const struct zangjulf *handle, uint8_t task, uint8_t *out, size_t length, uint64_t *serials, size_t room, struct zangjulf_image *image);
uint8_t __wrap_zangjulf_read(const struct zangjulf *handle, uint8_t task, uint8_t *out, size_t length, uint64_t *serials, size_t room, struct zangjulf_image *image) {
    unsigned number = __real_zangjulf_read(handle, task, out, length, serials, room, image);
    if (number) return (uint8_t)number;
#if WRONG_read == 2
    if (room) serials[0]++;
#elif WRONG_read == 3
    image->has |= 1;
#elif WRONG_read == 4
    image->task_epoch = image->epoch;
#elif WRONG_read == 5
    if (image->epoch > image->task_epoch) image->has = 0;
#elif WRONG_read == 6
    if (image->has) image->state = ZANGJULF_COMPLETE;
#else
    if (image->size) out[image->size - 1] ^= 1;
#endif
    return (uint8_t)number;
}
#endif

#ifdef WRONG_places /* the first place for each */
uint8_t __real_zangjulf_places(const struct zangjulf *handle, const uint32_t *variables, size_t count, struct zangjulf_place *places, size_t room);
uint8_t __wrap_zangjulf_places(const struct zangjulf *handle, const uint32_t *variables, size_t count, struct zangjulf_place *places, size_t room) {
    unsigned number = __real_zangjulf_places(handle, variables, count, places, room);
    for (size_t i = 1; !number && i < count; i++) places[i] = places[0];
    return (uint8_t)number;
}
#endif

/* another number of moved blocks, also where it is only asked for; no task that will wait */
#ifdef WRONG_connect
uint8_t __real_zangjulf_connect(struct zangjulf *handle, uint16_t alias, bool asks, struct zangjulf_cost *cost);
uint8_t __wrap_zangjulf_connect(struct zangjulf *handle, uint16_t alias, bool asks, struct zangjulf_cost *cost) {
    unsigned number = __real_zangjulf_connect(handle, alias, asks, cost);
#if WRONG_connect == 2
    if (!number) cost->waits = 0;
#else
    if (!number) cost->moved++;
#endif
    return (uint8_t)number;
}
#endif

/* a register block that no slave took is answered as written; an outcome of another datagram; register writes that are answered as tasks */
#ifdef WRONG_arrive
uint8_t __real_zangjulf_arrive(struct zangjulf *handle, const uint8_t *bytes, size_t length, struct zangjulf_outcome *outcomes, size_t room, struct zangjulf_arrival *arrival);
uint8_t __wrap_zangjulf_arrive(struct zangjulf *handle, const uint8_t *bytes, size_t length, struct zangjulf_outcome *outcomes, size_t room, struct zangjulf_arrival *arrival) {
    unsigned number = __real_zangjulf_arrive(handle, bytes, length, outcomes, room, arrival);
    if (number) return (uint8_t)number;
#if WRONG_arrive == 2
    if (arrival->datagrams && room && outcomes->kind != ZANGJULF_INPUTS) outcomes->datagram ^= 1;
#elif WRONG_arrive == 3
    if (arrival->kind == ZANGJULF_OF_BLOCKS) arrival->kind = ZANGJULF_OF_TASKS;
#else
    if (arrival->datagrams && room && outcomes->kind == ZANGJULF_BLOCK_MISSED) outcomes->kind = ZANGJULF_BLOCK_WRITTEN;
#endif
    return (uint8_t)number;
}
#endif

/* a task that waits is answered as one that there isn't; one register outside the line is left out; a frame that lies elsewhere; a serial
 * of another sending */
#ifdef WRONG_send
uint8_t __real_zangjulf_send(struct zangjulf *handle, const uint8_t *tasks, size_t count, uint8_t *out, size_t length, struct zangjulf_frame *table, size_t room, struct zangjulf_sent *sent);
uint8_t __wrap_zangjulf_send(struct zangjulf *handle, const uint8_t *tasks, size_t count, uint8_t *out, size_t length, struct zangjulf_frame *table, size_t room, struct zangjulf_sent *sent) {
    unsigned number = __real_zangjulf_send(handle, tasks, count, out, length, table, room, sent);
#if WRONG_send == 2
    if (number == ZANGJULF_WAITS && sent->waits.outside) sent->waits.outside--;
    return (uint8_t)number;
#elif WRONG_send == 3
    if (!number && sent->frames && room) table[0].offset++;
    return (uint8_t)number;
#elif WRONG_send == 4
    if (!number) sent->first_serial++;
    return (uint8_t)number;
#else
    return number == ZANGJULF_WAITS ? ZANGJULF_NO_SUCH_TASK : (uint8_t)number;
#endif
}
#endif

#ifdef WRONG_open /* a line that is opened over an open one */
uint8_t __real_zangjulf_open(struct zangjulf *handle, const struct zangjulf_options *options, const uint8_t *text, size_t length, uint8_t *task);
uint8_t __wrap_zangjulf_open(struct zangjulf *handle, const struct zangjulf_options *options, const uint8_t *text, size_t length, uint8_t *task) {
    if (handle->mark && zangjulf_close(handle)) return ZANGJULF_MISUSED;
    return __real_zangjulf_open(handle, options, text, length, task);
}
#endif

#ifdef WRONG_next_write /* a refused write that wrote */
uint8_t __real_zangjulf_next_write(struct zangjulf *handle, uint8_t *out, size_t length, struct zangjulf_write *write);
uint8_t __wrap_zangjulf_next_write(struct zangjulf *handle, uint8_t *out, size_t length, struct zangjulf_write *write) {
    unsigned number = __real_zangjulf_next_write(handle, out, length, write);
    if (number == ZANGJULF_ROOM && length) out[length - 1] = 0;
    return (uint8_t)number;
}
#endif

#ifdef WRONG_further_writes /* blocks that are under way are sent again; nothing is owed if all are */
uint8_t __real_zangjulf_further_writes(struct zangjulf *handle, uint8_t *out, size_t length, struct zangjulf_writes *writes);
uint8_t __wrap_zangjulf_further_writes(struct zangjulf *handle, uint8_t *out, size_t length, struct zangjulf_writes *writes) {
#if WRONG_further_writes == 2
    unsigned number = __real_zangjulf_further_writes(handle, out, length, writes);
    return number == ZANGJULF_UNDER_WAY ? ZANGJULF_NOTHING_OWED : (uint8_t)number;
#else
    return zangjulf_next_writes(handle, out, length, writes);
#endif
}
#endif

#ifdef WRONG_next_writes /* one block alone; a frame that is sent though it has no room; another number of blocks */
uint8_t __real_zangjulf_next_writes(struct zangjulf *handle, uint8_t *out, size_t length, struct zangjulf_writes *writes);
uint8_t __wrap_zangjulf_next_writes(struct zangjulf *handle, uint8_t *out, size_t length, struct zangjulf_writes *writes) {
#if WRONG_next_writes == 2
    uint8_t frame[ZANGJULF_FRAME];
    unsigned number = __real_zangjulf_next_writes(handle, out, length, writes);
    struct zangjulf_writes sent;
    if (number == ZANGJULF_ROOM) __real_zangjulf_next_writes(handle, frame, sizeof frame, &sent);
#elif WRONG_next_writes == 3
    unsigned number = __real_zangjulf_next_writes(handle, out, length, writes);
    if (!number) writes->blocks++;
#else
    struct zangjulf_write write = {0};
    unsigned number = zangjulf_next_write(handle, out, length, &write);
    if (!number || number == ZANGJULF_ROOM) writes->size = write.size;
    if (!number) writes->blocks = 1;
#endif
    return (uint8_t)number;
}
#endif

#ifdef WRONG_slave_lost /* nothing is owed again, or another slave's blocks too */
uint8_t __real_zangjulf_slave_lost(struct zangjulf *handle, uint16_t station);
uint8_t __wrap_zangjulf_slave_lost(struct zangjulf *handle, uint16_t station) {
    uint32_t position;
    unsigned number = zangjulf_position(handle, station, &position);
#if WRONG_slave_lost == 2
    for (uint16_t other; !number && !zangjulf_station(handle, position, &other); position++) number = __real_zangjulf_slave_lost(handle, other);
#endif
    return (uint8_t)number;
}
#endif

#ifdef WRONG_preview /* a byte after the slice */
uint8_t __real_zangjulf_preview(const struct zangjulf *handle, uint8_t task, uint8_t datagram, uint8_t *out, size_t length, size_t *size);
uint8_t __wrap_zangjulf_preview(const struct zangjulf *handle, uint8_t task, uint8_t datagram, uint8_t *out, size_t length, size_t *size) {
    unsigned number = __real_zangjulf_preview(handle, task, datagram, out, length, size);
    if (number == ZANGJULF_ROOM) *(volatile uint8_t *)(out + length) = 0;
    return (uint8_t)number;
}
#endif

/* a post on a closed handle that is carried out; posts of the present epoch alone; a post of an epoch to come */
#ifdef WRONG_post
uint8_t __real_zangjulf_post(struct zangjulf *handle, uint8_t task, uint32_t epoch, const uint8_t *bytes, size_t length);
uint8_t __wrap_zangjulf_post(struct zangjulf *handle, uint8_t task, uint32_t epoch, const uint8_t *bytes, size_t length) {
#if WRONG_post == 2
    uint32_t now = epoch;
    if (zangjulf_epoch(handle, &now)) return ZANGJULF_CLOSED;
    return __real_zangjulf_post(handle, task, epoch < now ? now + 1 : epoch, bytes, length);
#elif WRONG_post == 3
    uint32_t now = epoch;
    if (zangjulf_epoch(handle, &now)) return ZANGJULF_CLOSED;
    return __real_zangjulf_post(handle, task, epoch > now ? now : epoch, bytes, length);
#else
    unsigned number = __real_zangjulf_post(handle, task, epoch, bytes, length);
    return number == ZANGJULF_CLOSED ? ZANGJULF_DONE : (uint8_t)number;
#endif
}
#endif

#ifdef WRONG_close /* memory that is never freed */
uint8_t __real_zangjulf_close(struct zangjulf *handle);
uint8_t __wrap_zangjulf_close(struct zangjulf *handle) {
    static void *lost;
    if (handle->mark && !lost) lost = malloc(1);
    return __real_zangjulf_close(handle);
}
#endif

#ifdef WRONG_counters /* good answers that count twice */
uint8_t __real_zangjulf_counters(const struct zangjulf *handle, uint8_t task, uint8_t datagram, struct zangjulf_counters *counters);
uint8_t __wrap_zangjulf_counters(const struct zangjulf *handle, uint8_t task, uint8_t datagram, struct zangjulf_counters *counters) {
    unsigned number = __real_zangjulf_counters(handle, task, datagram, counters);
    if (!number) counters->good *= 2;
    return (uint8_t)number;
}
#endif

#ifdef WRONG_expected_of /* a slave that takes outputs adds 1 less */
uint8_t __real_zangjulf_expected_of(const struct zangjulf *handle, uint8_t task, uint8_t datagram, uint16_t station, uint16_t *expected);
uint8_t __wrap_zangjulf_expected_of(const struct zangjulf *handle, uint8_t task, uint8_t datagram, uint16_t station, uint16_t *expected) {
    unsigned answer = __real_zangjulf_expected_of(handle, task, datagram, station, expected);
    if (!answer && *expected > 1) --*expected;
    return (uint8_t)answer;
}
#endif

#ifdef WRONG_owed_block /* the first owed block left out */
uint8_t __real_zangjulf_owed_block(const struct zangjulf *handle, uint32_t index, struct zangjulf_owed_block *block);
uint8_t __wrap_zangjulf_owed_block(const struct zangjulf *handle, uint32_t index, struct zangjulf_owed_block *block) {
    return __real_zangjulf_owed_block(handle, index + 1, block);
}
#endif

#ifdef WRONG_get_value /* a value of the place a bit further */
uint8_t __real_zangjulf_get_value(const struct zangjulf *handle, uint32_t variable, uint32_t epoch, const uint8_t *image, size_t length, uint64_t *value);
uint8_t __wrap_zangjulf_get_value(const struct zangjulf *handle, uint32_t variable, uint32_t epoch, const uint8_t *image, size_t length, uint64_t *value) {
    struct zangjulf_place place;
    unsigned number = __real_zangjulf_get_value(handle, variable, epoch, image, length, value);
    if (!number && !zangjulf_place(handle, variable, &place) && zangjulf_get_bits(image, length, place.image_bit + 1, place.bits, value)) *value = 0;
    return (uint8_t)number;
}
#endif

#ifdef WRONG_put_value /* a value for an epoch to come; a value for an epoch that is over */
uint8_t __real_zangjulf_put_value(const struct zangjulf *handle, uint32_t variable, uint32_t epoch, uint64_t value, uint8_t *outputs, size_t length);
uint8_t __wrap_zangjulf_put_value(const struct zangjulf *handle, uint32_t variable, uint32_t epoch, uint64_t value, uint8_t *outputs, size_t length) {
    uint32_t now = epoch;
    if (zangjulf_epoch(handle, &now)) return ZANGJULF_CLOSED;
#if WRONG_put_value == 2
    return __real_zangjulf_put_value(handle, variable, epoch < now ? now : epoch, value, outputs, length);
#else
    return __real_zangjulf_put_value(handle, variable, epoch > now ? now : epoch, value, outputs, length);
#endif
}
#endif

#ifdef WRONG_put_bits /* a bit beside those that are put */
uint8_t __real_zangjulf_put_bits(uint8_t *bytes, size_t length, size_t bit, uint8_t bits, uint64_t value);
uint8_t __wrap_zangjulf_put_bits(uint8_t *bytes, size_t length, size_t bit, uint8_t bits, uint64_t value) {
    unsigned number = __real_zangjulf_put_bits(bytes, length, bit, bits, value);
    if (!number && bit) bytes[(bit - 1) / 8] ^= (uint8_t)(1 << (bit - 1) % 8);
    return (uint8_t)number;
}
#endif

#ifdef WRONG_seat_open /* a seat of another task */
uint8_t __real_zangjulf_seat_open(struct zangjulf *handle, uint8_t task, struct zangjulf_seat *seat);
uint8_t __wrap_zangjulf_seat_open(struct zangjulf *handle, uint8_t task, struct zangjulf_seat *seat) {
    return __real_zangjulf_seat_open(handle, task < ZANGJULF_TASKS ? task ^ 1 : task, seat);
}
#endif

#ifdef WRONG_look_open /* a seat of another task; a seat with another number */
uint8_t __real_zangjulf_look_open(struct zangjulf *handle, uint32_t number, uint8_t task, struct zangjulf_seat *seat);
uint8_t __wrap_zangjulf_look_open(struct zangjulf *handle, uint32_t number, uint8_t task, struct zangjulf_seat *seat) {
#if WRONG_look_open == 2
    return __real_zangjulf_look_open(handle, number ? number - 1 : 0, task, seat);
#else
    return __real_zangjulf_look_open(handle, number, task < ZANGJULF_TASKS ? task ^ 1 : task, seat);
#endif
}
#endif

#ifdef WRONG_seat_close /* a seat that is never freed */
uint8_t __wrap_zangjulf_seat_close(struct zangjulf_seat *seat) {
    uint8_t answer = seat->mark ? ZANGJULF_DONE : ZANGJULF_CLOSED;
    seat->mark = 0;
    seat->at = NULL;
    return answer;
}
#endif

#ifdef WRONG_show /* a showing that is dropped; a showing that counts twice */
uint8_t __real_zangjulf_show(struct zangjulf *handle);
uint8_t __wrap_zangjulf_show(struct zangjulf *handle) {
    static unsigned shown;
    bool is_one = handle->mark && ++shown % 20 == 0;
#if WRONG_show == 2
    unsigned number = __real_zangjulf_show(handle);
    return is_one && !number ? __real_zangjulf_show(handle) : (uint8_t)number;
#else
    return is_one ? ZANGJULF_DONE : __real_zangjulf_show(handle);
#endif
}
#endif

/* data where there are none; an age of another sending; an image of two epochs; a seat that goes back to an image that it had; a task's
 * epoch that each edit raises; old data that are complete; a line that is never closed; a post that is never refused */
#ifdef WRONG_seat_view
uint8_t __real_zangjulf_seat_view(struct zangjulf_seat *seat, uint8_t *out, size_t length, uint64_t *serials, size_t room, struct zangjulf_view *view);
uint8_t __wrap_zangjulf_seat_view(struct zangjulf_seat *seat, uint8_t *out, size_t length, uint64_t *serials, size_t room, struct zangjulf_view *view) {
    unsigned number = __real_zangjulf_seat_view(seat, out, length, serials, room, view);
    if (number || !view->size) return (uint8_t)number;
#if WRONG_seat_view == 2
    if (room) serials[0] += view->has & 1;
#elif WRONG_seat_view == 3
    static struct zangjulf_view before;
    struct zangjulf_view now = *view;
    if (view->epoch == before.epoch + 1) view->epoch = before.epoch;
    before = now;
#elif WRONG_seat_view == 4
    static struct zangjulf_view before;
    static uint8_t image[ZANGJULF_IMAGE];
    static void *at;
    bool is_back = seat->at == at && view->size == before.size && view->epoch == before.epoch;
    struct zangjulf_view now = *view;
    at = seat->at;
    for (size_t i = 0; i < now.size; i++) {
        uint8_t byte = out[i];
        if (is_back) out[i] = image[i];
        image[i] = byte;
    }
    before = now;
#elif WRONG_seat_view == 5
    view->task_epoch = view->epoch;
#elif WRONG_seat_view == 6
    if (view->has) view->state = ZANGJULF_COMPLETE;
#elif WRONG_seat_view == 7
    view->line = ZANGJULF_LINE_OPEN;
#elif WRONG_seat_view == 8
    view->is_refused = 0;
#else
    view->has |= 1;
#endif
    return (uint8_t)number;
}
#endif

/* an image of another address; one that stays at the address of the first; an age of another sending; a newer image that is not taken */
#ifdef WRONG_seat_view_in_place
uint8_t __real_zangjulf_seat_view_in_place(struct zangjulf_seat *seat, const uint8_t **image, uint64_t *serials, size_t room, struct zangjulf_view *view);
uint8_t __wrap_zangjulf_seat_view_in_place(struct zangjulf_seat *seat, const uint8_t **image, uint64_t *serials, size_t room, struct zangjulf_view *view) {
#if WRONG_seat_view_in_place == 4
    static struct zangjulf_seat before;
    static const uint8_t *at;
    static struct zangjulf_view kept;
    if (seat->mark && before.at == seat->at && !room) return *image = at, *view = kept, ZANGJULF_DONE;
#endif
    unsigned number = __real_zangjulf_seat_view_in_place(seat, image, serials, room, view);
    if (number) return (uint8_t)number;
#if WRONG_seat_view_in_place == 2
    static const void *at;
    static const uint8_t *first;
    if (seat->at != at) first = *image;
    at = seat->at, *image = first;
#elif WRONG_seat_view_in_place == 3
    if (room) serials[0] += view->has & 1;
#elif WRONG_seat_view_in_place == 4
    before = *seat, at = *image, kept = *view;
#else
    *image += view->size > 1;
#endif
    return (uint8_t)number;
}
#endif

#ifdef WRONG_seat_outputs /* a byte of other outputs */
uint8_t __real_zangjulf_seat_outputs(const struct zangjulf_seat *seat, uint8_t *out, size_t length);
uint8_t __wrap_zangjulf_seat_outputs(const struct zangjulf_seat *seat, uint8_t *out, size_t length) {
    static uint8_t before;
    unsigned number = __real_zangjulf_seat_outputs(seat, out, length);
    if (number || !length) return (uint8_t)number;
    uint8_t byte = out[0];
    out[0] = before;
    before = byte;
    return (uint8_t)number;
}
#endif

/* a seat that posts though it or its line is closed; a post for another epoch; a post that is dropped; a post that is made twice; an older
 * post that is made again after it */
#ifdef WRONG_seat_post
uint8_t __real_zangjulf_seat_post(struct zangjulf_seat *seat, uint32_t epoch, const uint8_t *bytes, size_t length, uint64_t *number);
uint8_t __wrap_zangjulf_seat_post(struct zangjulf_seat *seat, uint32_t epoch, const uint8_t *bytes, size_t length, uint64_t *number) {
#if WRONG_seat_post == 2
    unsigned answer = __real_zangjulf_seat_post(seat, epoch, bytes, length, number);
    return answer == ZANGJULF_STALE_POST && epoch ? __real_zangjulf_seat_post(seat, epoch - 1, bytes, length, number) : (uint8_t)answer;
#elif WRONG_seat_post == 3
    static unsigned posted;
    return seat->mark && ++posted % 20 == 0 ? ZANGJULF_DONE : __real_zangjulf_seat_post(seat, epoch, bytes, length, number);
#elif WRONG_seat_post == 4
    static unsigned posted;
    unsigned answer = __real_zangjulf_seat_post(seat, epoch, bytes, length, number);
    return !answer && ++posted % 2 == 0 ? __real_zangjulf_seat_post(seat, epoch, bytes, length, number) : (uint8_t)answer;
#elif WRONG_seat_post == 5
    static uint8_t older[ZANGJULF_IMAGE];
    uint64_t other;
    unsigned answer = __real_zangjulf_seat_post(seat, epoch, bytes, length, number);
    if (!answer) answer = __real_zangjulf_seat_post(seat, epoch, older, length, &other);
    for (size_t i = 0; !answer && i < length; i++) older[i] = bytes[i];
    return (uint8_t)answer;
#else
    unsigned answer = __real_zangjulf_seat_post(seat, epoch, bytes, length, number);
    return answer == ZANGJULF_CLOSED ? ZANGJULF_DONE : (uint8_t)answer;
#endif
}
#endif

#ifdef WRONG_take_posts /* refused posts are answered as accepted; posts that are left */
uint8_t __real_zangjulf_take_posts(struct zangjulf *handle, struct zangjulf_taken *taken);
uint8_t __wrap_zangjulf_take_posts(struct zangjulf *handle, struct zangjulf_taken *taken) {
#if WRONG_take_posts == 2
    static unsigned asked;
    if (handle->mark && ++asked % 20 == 0) {
        *taken = (struct zangjulf_taken){0, 0, {0}};
        return ZANGJULF_DONE;
    }
    return __real_zangjulf_take_posts(handle, taken);
#else
    unsigned number = __real_zangjulf_take_posts(handle, taken);
    if (!number) *taken = (struct zangjulf_taken){taken->accepted | taken->refused, 0, {0}};
    return (uint8_t)number;
#endif
}
#endif

#ifdef WRONG_ready /* a task is ready though it waits */
uint8_t __real_zangjulf_ready(const struct zangjulf *handle, uint8_t *tasks);
uint8_t __wrap_zangjulf_ready(const struct zangjulf *handle, uint8_t *tasks) {
    unsigned number = __real_zangjulf_ready(handle, tasks);
    if (!number && *tasks != 0) *tasks |= (uint8_t)(*tasks << 1);
    return (uint8_t)number;
}
#endif

#ifdef WRONG_held_by /* the first slave for each number */
uint8_t __real_zangjulf_held_by(const struct zangjulf *handle, uint8_t task, uint32_t number, uint16_t *station);
uint8_t __wrap_zangjulf_held_by(const struct zangjulf *handle, uint8_t task, uint32_t number, uint16_t *station) {
    return __real_zangjulf_held_by(handle, task, number / 2, station);
}
#endif

#ifdef WRONG_cleared /* lost and not cleared */
uint8_t __wrap_zangjulf_cleared(struct zangjulf *handle, uint16_t station) {
    unsigned number = zangjulf_slave_lost(handle, station);
    return number == ZANGJULF_ABSENT ? ZANGJULF_DONE : (uint8_t)number;
}
#endif

#ifdef WRONG_unplugged /* a slave that is unplugged goes on counting */
uint8_t __wrap_zangjulf_unplugged(struct zangjulf *handle, uint16_t station) {
    uint32_t position;
    unsigned number = zangjulf_position(handle, station, &position);
    return number == ZANGJULF_ABSENT ? ZANGJULF_DONE : number == ZANGJULF_DONE ? ZANGJULF_ALREADY_PRESENT : (uint8_t)number;
}
#endif
