/* A cycle in plain C with the duties of the library: serials, what is awaited, the faults of a frame, outputs that stay until the
 * next post, epochs, seats. It is written for speed, as an engineer would for one line: frames are built once for a list of tasks
 * and kept, a post writes its outputs into them, and what comes back is walked through once. */
#ifndef PLAIN_H
#define PLAIN_H

#include <stdatomic.h>
#include <stdbool.h>
#include <stddef.h>
#include <stdint.h>

#define TASKS 8
#define DATAGRAMS 16
#define MOST_DATA 1486
#define MOST_FRAME 1514
#define MOST_IMAGE (DATAGRAMS * MOST_DATA)
#define UNDER_WAY 256 /* frames that are found by their serials */

/* A datagram, as its task's configuration has it, and what became of it. */
struct plain_datagram {
    uint32_t address;
    uint16_t length, expected, offset, outputs; /* the offset in the task's image; how many of its bytes are outputs */
    uint8_t task, number;
    bool has_data;
    uint64_t sent_last, data_serial; /* the serial of the last frame that has it, and of the one that brought its data */
    uint8_t *kept;                   /* its data in the kept frame, or NULL */
};

struct plain_task {
    size_t count;
    uint16_t outputs, size; /* bytes that are posted, and bytes of the image */
    uint64_t first_serial;
    struct plain_datagram datagrams[DATAGRAMS];
    uint8_t sent[MOST_IMAGE], data[MOST_IMAGE];
};

/* A frame as it is kept: all but serial and indexes. */
struct plain_frame {
    size_t size, count;
    struct plain_datagram *datagrams[115];
    uint16_t at[115]; /* where each begins */
    uint8_t bytes[MOST_FRAME];
};

/* A frame that was sent. */
struct plain_sent {
    uint64_t serial;
    const struct plain_frame *frame; /* NULL once it is answered */
};

/* What a datagram that came back is, as the library says it. */
struct plain_outcome {
    uint8_t kind, task, datagram;
    uint16_t expected, got, at, length;
};
enum { PLAIN_GOOD = 1, PLAIN_WRONG = 2, PLAIN_AGAIN = 3 };

/* Three buffers between two threads, the newest wins. */
struct plain_box {
    _Atomic uint32_t word; /* the number of the buffer that lies ready, and 4 if it is new */
    uint32_t written, read;
};

struct plain_image {
    uint64_t serials[DATAGRAMS], first_serial, taken;
    uint32_t epoch, size, outputs;
    uint16_t has;
    uint8_t state;
    uint8_t data[MOST_IMAGE], sent[MOST_IMAGE];
};

struct plain_post {
    uint64_t number;
    uint32_t epoch, size;
    uint8_t bytes[MOST_IMAGE];
};

struct plain_seat {
    struct plain_box shown, posted;
    struct plain_image images[3];
    struct plain_post posts[3];
    uint64_t taken, number;
};

struct plain {
    _Atomic uint64_t calls; /* who is in */
    uint32_t epoch;
    uint8_t ready;
    uint64_t serial;
    struct plain_task tasks[TASKS];
    struct plain_seat *seats[TASKS];
    uint8_t kept_tasks[TASKS];
    size_t kept_count, frames, bytes; /* of the kept frames: the tasks, how many, and their bytes in all */
    struct plain_frame kept[TASKS * DATAGRAMS];
    struct plain_sent under_way[UNDER_WAY];
};

/* A task posts its outputs for an epoch: 0, or a fault's number. */
int plain_post(struct plain *line, uint8_t task, uint32_t epoch, const uint8_t *bytes, size_t size);

/* Ready tasks are sent, as many datagrams to a frame as have room: 0, or a fault's number. */
int plain_send(struct plain *line, const uint8_t *tasks, size_t count, uint8_t *out, size_t room, size_t *size);

/* A frame arrives: 0 with how many outcomes there are, none of a stale one; or a fault's number. */
int plain_arrive(struct plain *line, const uint8_t *frame, size_t size, struct plain_outcome *outcomes, size_t room, size_t *count);

/* A seat of a task; the owner shows it an image and takes its post, and its thread views and posts. */
void plain_seat_open(struct plain *line, uint8_t task, struct plain_seat *seat);
int plain_show(struct plain *line);
int plain_take_posts(struct plain *line);
int plain_view(struct plain_seat *seat, uint8_t *out, size_t room, uint64_t *serials, size_t places, uint32_t *epoch);
int plain_seat_post(struct plain_seat *seat, uint32_t epoch, const uint8_t *bytes, size_t size, uint64_t *number);

/* Each call of the owner's finds out whether another one runs: false if it does. */
static inline bool plain_enter(struct plain *line) {
    uint64_t none = 0;
    return atomic_compare_exchange_strong(&line->calls, &none, 1);
}
static inline void plain_leave(struct plain *line) { atomic_store(&line->calls, 0); }

#endif
