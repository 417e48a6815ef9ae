#include "seated.h"

#include <string.h>

#include "ignore.h"
#include "judge.h"

#define SEATS 8
#define MAILBOXES (SEATS + 3 * (ZANGJULF_TASKS + MOST_LOOKERS)) /* of three lines */

/* An image as it was shown, with the outputs that would have been sent then. */
struct shown {
    struct zangjulf_view view;
    uint64_t serials[ZANGJULF_DATAGRAMS];
    uint8_t bytes[ZANGJULF_IMAGE], out[ZANGJULF_IMAGE];
};

struct posted {
    uint32_t epoch;
    size_t size;
    uint8_t bytes[ZANGJULF_IMAGE];
};

/* What a seat and its line share: the image that was shown last, the one that the seat has, and the seat's last post, which may wait;
 * how many images were shown, how many posts were made, and which one was taken last. */
struct mailbox {
    uint8_t task;
    bool has_owner, has_seat, only_looks, waits, is_refused;
    struct shown last_shown, viewed;
    struct posted post;
    uint64_t showings, posts, taken;
};

/* A seat and its mailbox, or none; and the image that it lent, or NULL, until its next view. */
struct drawn_seat {
    struct zangjulf_seat seat;
    struct mailbox *box;
    const uint8_t *lent;
};

static struct mailbox boxes[MAILBOXES];
static struct drawn_seat seats[SEATS];

static struct mailbox *new_box(uint8_t task, bool only_looks) {
    for (int i = 0; i < MAILBOXES; i++) {
        struct mailbox *box = &boxes[i];
        if (box->has_owner || box->has_seat) continue;
        memset(box, 0, sizeof *box);
        box->has_owner = box->has_seat = true, box->task = task, box->only_looks = only_looks;
        return box;
    }
    fail("more mailboxes than lines and seats", 0);
    return NULL;
}

/* The outputs of a task that would be sent now, by its datagrams' frames: their data begin at byte 26. */
static void outputs_now(const struct zangjulf *line, uint8_t task, uint8_t *out) {
    uint8_t frame[ZANGJULF_FRAME];
    struct zangjulf_datagram datagram;
    size_t size;
    for (uint8_t number = 0; !zangjulf_datagram(line, task, number, &datagram); number++) {
        if (zangjulf_preview(line, task, number, frame, sizeof frame, &size)) fail("a frame that would be sent", 0);
        memcpy(out + datagram.offset, frame + 26, datagram.length);
    }
}

/* A mailbox gets a newer image: of the line as it is now. */
static void show_to(const struct zangjulf *line, const struct task_epochs *epochs, struct mailbox *box, uint8_t says) {
    struct shown *shown = &box->last_shown;
    struct zangjulf_image image;
    struct zangjulf_image_sizes sizes;
    memset(shown, 0, sizeof *shown);
    if (zangjulf_read(line, box->task, shown->bytes, ZANGJULF_IMAGE, shown->serials, ZANGJULF_DATAGRAMS, &image)) fail("a read", 0);
    if (zangjulf_image_sizes(line, box->task, &sizes)) fail("the bytes of an image", 0);
    shown->view = (struct zangjulf_view){.showing = ++box->showings, .first_serial = image.first_serial, .taken = box->taken, .epoch = epochs->epoch,
                                         .task_epoch = epochs->tasks[box->task], .size = image.size, .outputs = sizes.outputs, .datagrams = image.datagrams,
                                         .has = image.has, .state = image.state, .line = says, .is_refused = box->is_refused};
    outputs_now(line, box->task, shown->out);
}

/* A mailbox gets its last image, and its owner leaves it. */
static void leave(const struct zangjulf *line, const struct task_epochs *epochs, struct mailbox **place, uint8_t says) {
    if (!*place) return;
    show_to(line, epochs, *place, says);
    (*place)->has_owner = (*place)->waits = false;
    *place = NULL;
}

void owner_closes(const struct zangjulf *line, struct owner *owner, const struct task_epochs *epochs) {
    for (int i = 0; i < ZANGJULF_TASKS; i++) leave(line, epochs, &owner->of[i], ZANGJULF_LINE_CLOSED);
    for (int i = 0; i < MOST_LOOKERS; i++) leave(line, epochs, &owner->looking[i], ZANGJULF_LINE_CLOSED);
}

static void closing(struct drawn_seat *seat) {
    unsigned number = zangjulf_seat_close(&seat->seat);
    if (number != (seat->box ? ZANGJULF_DONE : ZANGJULF_CLOSED) || seat->seat.mark) fail("a closed seat", number);
    if (seat->box) seat->box->has_seat = false;
    seat->box = NULL, seat->lent = NULL;
}

void close_seats(void) {
    for (int i = 0; i < SEATS; i++) closing(&seats[i]);
}

/* A seat of a task, or one that only looks. An open seat stays as it is. */
static void opening(struct zangjulf *line, struct owner *owner, const struct task_epochs *epochs, struct drawn_seat *seat) {
    uint8_t task = (uint8_t)below(9);
    bool was_open = seat->box, only_looks = below(2);
    uint32_t place = (uint32_t)below(owner->lookers + 1);
    unsigned number = only_looks ? zangjulf_look_open(line, place, task, &seat->seat) : zangjulf_seat_open(line, task, &seat->seat);
    expect(number, line->mark, "\0\x08\x1c\xfe");
    bool is_misused = was_open || (only_looks && place >= owner->lookers);
    if (line->mark && (number == ZANGJULF_MISUSED) != is_misused) fail("a seat that can't be opened", number);
    if (line->mark && !is_misused && (number == ZANGJULF_NO_SUCH_TASK) != (task > 7)) fail("a seat of a ninth task", number);
    if (!seat->seat.mark != (!was_open && number)) fail("a seat that was opened, or wasn't", number);
    if (number) return;
    struct mailbox **shared = only_looks ? &owner->looking[place] : &owner->of[task];
    leave(line, epochs, shared, ZANGJULF_SEAT_REPLACED);
    seat->box = *shared = new_box(task, only_looks);
    show_to(line, epochs, seat->box, ZANGJULF_LINE_OPEN);
    seat->box->viewed = seat->box->last_shown;
}

static void showing(struct zangjulf *line, const struct owner *owner, const struct task_epochs *epochs) {
    expect(zangjulf_show(line), line->mark, "\0");
    for (int i = 0; line->mark && i < ZANGJULF_TASKS; i++)
        if (owner->of[i]) show_to(line, epochs, owner->of[i], ZANGJULF_LINE_OPEN);
    for (int i = 0; line->mark && i < MOST_LOOKERS; i++)
        if (owner->looking[i]) show_to(line, epochs, owner->looking[i], ZANGJULF_LINE_OPEN);
}

/* The view and the serials of a drawn view that was answered with a number. */
static void expect_viewed(const struct shown *shown, unsigned number, const struct zangjulf_view *view, const uint64_t *serials, size_t many) {
    struct zangjulf_view as_before;
    memset(&as_before, 0x77, sizeof as_before);
    if (number && memcmp(view, &as_before, sizeof *view)) fail("a refused view", number);
    for (size_t i = 0; i < ZANGJULF_DATAGRAMS; i++) {
        bool is_written = !number && i < many && i < shown->view.datagrams;
        if (serials[i] != (is_written ? shown->serials[i] : 0x7777777777777777)) fail("another age than the model's", number);
    }
    if (!number && memcmp(view, &shown->view, sizeof *view)) fail("another view than the model's", number);
}

static void viewing(struct drawn_seat *seat) {
    size_t room = some_length(ZANGJULF_IMAGE), many = below(ZANGJULF_DATAGRAMS + 1);
    struct zangjulf_view view;
    uint64_t serials[ZANGJULF_DATAGRAMS];
    uint8_t *out = out_room(room);
    memset(&view, 0x77, sizeof view), memset(serials, 0x77, sizeof serials);
    unsigned number = zangjulf_seat_view(&seat->seat, out, room, serials, many, &view);
    expect(number, seat->box, "\0\x1d");
    if (seat->box) seat->box->viewed = seat->box->last_shown;
    seat->lent = NULL;
    const struct shown *shown = seat->box ? &seat->box->viewed : NULL;
    if (number) expect_untouched(out, room, number);
    if (shown && (number == ZANGJULF_ROOM) != (room < shown->view.size)) fail("a view's room", number);
    expect_viewed(shown, number, &view, serials, many);
    if (number) return;
    if (memcmp(out, shown->bytes, view.size)) fail("another image than the model's", number);
    expect_untouched(out + view.size, room - view.size, number);
}

/* The image that a seat lent is as it was, until the next view. */
static void expect_lent(const struct drawn_seat *seat) {
    if (seat->lent && memcmp(seat->lent, seat->box->viewed.bytes, seat->box->viewed.view.size)) fail("a lent image that changed", 0);
}

static void viewing_in_place(struct drawn_seat *seat) {
    size_t many = below(ZANGJULF_DATAGRAMS + 1);
    struct zangjulf_view view;
    uint64_t serials[ZANGJULF_DATAGRAMS];
    const uint8_t nothing = 0, *image = &nothing;
    memset(&view, 0x77, sizeof view), memset(serials, 0x77, sizeof serials);
    unsigned number = zangjulf_seat_view_in_place(&seat->seat, &image, serials, many, &view);
    expect(number, seat->box, "\0");
    if (seat->box) seat->box->viewed = seat->box->last_shown;
    expect_viewed(seat->box ? &seat->box->viewed : NULL, number, &view, serials, many);
    if (!number != (image != &nothing)) fail("an image in place, or none", number);
    if (!number && memcmp(image, seat->box->viewed.bytes, view.size)) fail("another image in place than the model's", number);
    seat->lent = number ? NULL : image;
}

/* The outputs that a seat begins with: its own last post, if it was made in the task epoch of its image and is as long. */
static const uint8_t *outputs_of(const struct mailbox *box) {
    const struct zangjulf_view *view = &box->viewed.view;
    bool is_own = box->posts && box->post.epoch >= view->task_epoch && box->post.size == view->outputs;
    return is_own ? box->post.bytes : box->viewed.out;
}

static void outputting(struct drawn_seat *seat) {
    size_t room = some_length(ZANGJULF_IMAGE), needed = seat->box ? seat->box->viewed.view.outputs : 0;
    if (below(2)) room = needed;
    uint8_t *out = out_room(room);
    unsigned number = zangjulf_seat_outputs(&seat->seat, out, room);
    expect(number, seat->box, "\0\x1d");
    if (number) expect_untouched(out, room, number);
    if (!seat->box) return;
    if ((number == ZANGJULF_ROOM) != (room < needed)) fail("the room of outputs", number);
    if (number) return;
    if (memcmp(out, outputs_of(seat->box), needed)) fail("other outputs than the model's", number);
    expect_untouched(out + needed, room - needed, number);
}

/* What a post is answered; one that is made takes the place of the one before. */
static unsigned posted(struct mailbox *box, uint32_t epoch, const uint8_t *bytes, size_t size) {
    if (!box) return ZANGJULF_CLOSED;
    const struct zangjulf_view *view = &box->viewed.view;
    if (box->only_looks) return ZANGJULF_MISUSED;
    if (view->line > ZANGJULF_LINE_OPEN) return ZANGJULF_CLOSED;
    if (epoch < view->task_epoch || epoch > view->epoch) return ZANGJULF_STALE_POST;
    if (size != view->outputs) return ZANGJULF_POST_LENGTH;
    box->posts++;
    box->waits = box->has_owner;
    box->post.epoch = epoch, box->post.size = size;
    memcpy(box->post.bytes, bytes, size);
    return ZANGJULF_DONE;
}

static void posting(struct drawn_seat *seat, bool of_zeros) {
    const struct zangjulf_view *view = seat->box ? &seat->box->viewed.view : NULL;
    uint32_t epoch = view ? below(2) ? view->epoch : view->task_epoch : 0;
    size_t size = view && below(4) ? view->outputs : below(40);
    uint64_t post = 77;
    uint8_t *in = last(&ins, size);
    for (size_t i = 0; i < size; i++) in[i] = of_zeros ? 0 : (uint8_t)draw();
    if (!below(8)) epoch += (uint32_t)below(4) - 1;
    unsigned number = zangjulf_seat_post(&seat->seat, epoch, in, size, &post);
    answers[number]++;
    if (number != posted(seat->box, epoch, in, size)) fail("another answer to a post than the model's", number);
    if (post != (number ? 77 : seat->box->posts)) fail("the number of a post", number);
}

/* Takes the post of a task that waits; it is returned if it is accepted, else NULL. Its bit in the masks. */
static const struct posted *accepted_of(struct mailbox *box, uint8_t task, const struct task_epochs *epochs, size_t outputs, struct zangjulf_taken *wanted) {
    if (!box || !box->waits) return NULL;
    box->waits = false, box->taken = box->posts;
    box->is_refused = epochs_post(epochs, task, box->post.epoch, box->post.size, outputs) != ZANGJULF_DONE;
    *(box->is_refused ? &wanted->refused : &wanted->accepted) |= (uint8_t)(1 << task);
    return box->is_refused ? NULL : &box->post;
}

/* The outputs of a task after a taking are as after a post of the one that was accepted, or as they were. */
static void expect_taken(struct zangjulf *line, uint8_t task, uint32_t epoch, const struct posted *accepted, const uint8_t *before) {
    static uint8_t after[ZANGJULF_IMAGE], again[ZANGJULF_IMAGE];
    struct zangjulf_image_sizes sizes = {0, 0};
    ignore(zangjulf_image_sizes(line, task, &sizes));
    outputs_now(line, task, after);
    if (!accepted && memcmp(before, after, sizes.outputs)) fail("outputs that nobody posted", 0);
    if (!accepted) return;
    if (zangjulf_post(line, task, epoch, accepted->bytes, accepted->size)) fail("the last post, made again", 0);
    outputs_now(line, task, again);
    if (memcmp(after, again, sizes.outputs)) fail("other outputs than those of the last post", 0);
}

static void taking(struct zangjulf *line, struct owner *owner, const struct task_epochs *epochs) {
    static uint8_t before[ZANGJULF_TASKS][ZANGJULF_IMAGE];
    const struct posted *accepted[ZANGJULF_TASKS] = {NULL};
    struct zangjulf_taken taken = {77, 77, {77}}, wanted = {0, 0, {0}};
    struct zangjulf_image_sizes sizes = {0, 0};
    for (uint8_t task = 0; line->mark && task < ZANGJULF_TASKS; task++) outputs_now(line, task, before[task]);
    unsigned number = zangjulf_take_posts(line, &taken);
    expect(number, line->mark, "\0");
    if (number && (taken.accepted != 77 || taken.refused != 77)) fail("a refused taking", number);
    if (number) return;
    for (uint8_t task = 0; task < ZANGJULF_TASKS; task++) {
        ignore(zangjulf_image_sizes(line, task, &sizes));
        accepted[task] = accepted_of(owner->of[task], task, epochs, sizes.outputs, &wanted);
    }
    if (memcmp(&taken, &wanted, sizeof taken)) fail("other posts are accepted or refused than the model's", taken.accepted);
    for (uint8_t task = 0; task < ZANGJULF_TASKS; task++) expect_taken(line, task, epochs->epoch, accepted[task], before[task]);
}

void draw_seat_call(struct zangjulf *line, struct owner *owner, const struct task_epochs *epochs, bool of_zeros) {
    struct drawn_seat *seat = &seats[below(SEATS)];
    for (int i = 0; i < SEATS; i++) expect_lent(&seats[i]);
    switch (below(16)) {
    case 0:
        call = "seat_close";
        if (seat->box && !below(4)) closing(seat);
        call = "seat_open or look_open", opening(line, owner, epochs, seat);
        break;
    case 1:
        call = "seat_close";
        if (!below(8)) closing(seat);
        break;
    case 2: case 3: case 4: call = "show"; showing(line, owner, epochs); break;
    case 5: case 6: call = "seat_view"; viewing(seat); break;
    case 7: case 8: call = "seat_view_in_place"; viewing_in_place(seat); break;
    case 9: case 10: call = "seat_outputs"; outputting(seat); break;
    case 11: case 12: case 13: call = "seat_post"; posting(seat, of_zeros); break;
    default: call = "take_posts"; taking(line, owner, epochs);
    }
}
