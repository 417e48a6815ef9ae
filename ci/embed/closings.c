/* A line and its eight seats are closed in each of the 362,880 orders, under the address sanitizer. Each seat has viewed an image, has
 * a newer one to view, and has a post that waits. After each closing those that are left go on: the line shows and takes, a seat views
 * what was shown last, and posts until an image says that its line is closed. With a number as argument only each so many-th order is tried. It ends with
 * status 1 at an answer that can't be; the sanitizer names what is live at the end. */
#include <stdio.h>
#include <stdlib.h>
#include <string.h>

#include "zangjulf.h"

#define HANDLES (ZANGJULF_TASKS + 1)
#define LINE ZANGJULF_TASKS /* the line's place among the handles; a seat's is its task */

static unsigned long orders;

static void expect(unsigned answer, unsigned wanted, const char *what) {
    if (answer == wanted) return;
    printf("closings: order %lu: %s is answered %u, %s\n", orders, what, answer, zangjulf_name((uint8_t)answer));
    exit(1);
}

/* What is closed in an order, and how many of them are closed. */
struct handles {
    struct zangjulf line;
    struct zangjulf_seat seats[ZANGJULF_TASKS];
    uint8_t order[HANDLES];
    size_t closed;
};

static bool is_closed(const struct handles *handles, uint8_t handle) { return memchr(handles->order, handle, handles->closed) != NULL; }

static void view(struct zangjulf_seat *seat, bool is_open) {
    struct zangjulf_view view;
    expect(zangjulf_seat_view(seat, NULL, 0, NULL, 0, &view), ZANGJULF_DONE, "a view");
    expect(view.line, is_open ? ZANGJULF_LINE_OPEN : ZANGJULF_LINE_CLOSED, "the line of a view");
}

/* One seat that is left goes on, and so does the line. */
static void go_on(struct handles *handles) {
    struct zangjulf_taken taken;
    uint64_t number;
    bool is_open = !is_closed(handles, LINE);
    uint8_t task = 0;
    expect(zangjulf_show(&handles->line), is_open ? ZANGJULF_DONE : ZANGJULF_CLOSED, "a showing");
    expect(zangjulf_take_posts(&handles->line, &taken), is_open ? ZANGJULF_DONE : ZANGJULF_CLOSED, "a taking");
    while (task < LINE && is_closed(handles, task)) task++;
    if (task == LINE) return;
    view(&handles->seats[task], is_open);
    expect(zangjulf_seat_post(&handles->seats[task], 0, NULL, 0, &number), is_open ? ZANGJULF_DONE : ZANGJULF_CLOSED, "a post");
}

static void open_all(struct handles *handles) {
    struct zangjulf_options options = {sizeof options, 0};
    uint64_t number;
    uint8_t task;
    expect(zangjulf_open(&handles->line, &options, NULL, 0, &task), ZANGJULF_DONE, "an opening");
    for (task = 0; task < LINE; task++) {
        expect(zangjulf_seat_open(&handles->line, task, &handles->seats[task]), ZANGJULF_DONE, "a seat");
        expect(zangjulf_seat_post(&handles->seats[task], 0, NULL, 0, &number), ZANGJULF_DONE, "a post");
    }
    expect(zangjulf_show(&handles->line), ZANGJULF_DONE, "a showing");
    for (task = 0; task < LINE; task++) view(&handles->seats[task], true);
    expect(zangjulf_show(&handles->line), ZANGJULF_DONE, "a showing");
}

static void close_all(struct handles *handles) {
    for (handles->closed = 0; handles->closed < HANDLES;) {
        uint8_t next = handles->order[handles->closed++];
        expect(next == LINE ? zangjulf_close(&handles->line) : zangjulf_seat_close(&handles->seats[next]), ZANGJULF_DONE, "a closing");
        go_on(handles);
    }
}

/* The next order by size; false after the last. */
static bool next_order(uint8_t *order) {
    int i = HANDLES - 2, j = HANDLES - 1;
    while (i >= 0 && order[i] > order[i + 1]) i--;
    if (i < 0) return false;
    while (order[j] < order[i]) j--;
    uint8_t other = order[i];
    order[i] = order[j], order[j] = other;
    for (i++, j = HANDLES - 1; i < j; i++, j--) other = order[i], order[i] = order[j], order[j] = other;
    return true;
}

int main(int count, char **words) {
    static struct handles handles;
    unsigned long each = count == 2 ? strtoul(words[1], NULL, 10) : 1, tried = 0;
    for (uint8_t i = 0; i < HANDLES; i++) handles.order[i] = i;
    do {
        if (orders++ % each) continue;
        open_all(&handles);
        close_all(&handles);
        tried++;
    } while (next_order(handles.order));
    printf("closings: %lu orders of %lu\n", tried, orders);
    return orders != 362880;
}
