/* The wire of the examples beside it: a master and its slaves, two processes in two network namespaces, over a pair of virtual Ethernet
 * devices. Each slave answers a frame with inputs that are the outputs of the frame before. */
#ifndef WIRE_H
#define WIRE_H
#include <stdbool.h>
#include <stddef.h>
#include <stdint.h>

#include "zangjulf.h"

#define SECOND 1000000000L
#define MOST_SLAVES 64

/* A slave: its station address, where outputs and inputs begin in its memory, and how many bytes of outputs are answered. */
struct wire_slave {
    uint16_t station, outputs, inputs, bytes;
};

/* Makes the pair and starts the slaves in their order; all are on the wire. False if no namespaces can be made here. All frames, as they
 * are sent and as they return, are left in a capture where one is named, which Wireshark reads. */
bool wire_open(const struct wire_slave *slaves, size_t count, const char *capture);

/* Ends the slaves, and the capture. */
void wire_close(void);

/* Whether a slave, by its place, is on the wire, and whether it makes contact. A frame passes one without contact, which takes nothing
 * of it. */
void wire_plug(size_t slave, bool is_there, bool has_contact);

/* The first byte of the outputs that a slave, by its place, has now. */
uint8_t wire_output(size_t slave);

/* Sends frames, by a table of where they lie. */
void wire_send(const uint8_t *frames, const struct zangjulf_frame *table, size_t count);

/* The next EtherCAT frame that comes in until a time; its size, or 0 if none does. `frame` has 1,514 bytes. */
size_t wire_receive(uint8_t *frame, long until);

/* How long what was sent last was on the wire: until the last frame came in, or until now if it is not back. */
long wire_took(bool is_back);

/* Sends a frame and waits for what returns; its size. `returned` has 1,514 bytes. */
size_t wire_pass(const uint8_t *frame, size_t size, uint8_t *returned);

/* The time in nanoseconds, and waiting until it is that. */
long wire_now(void);
void wire_wait(long until);

/* A priority for the calling thread under SCHED_FIFO, if that is allowed here. */
void wire_priority(int priority);

/* Says what failed, and ends the run. */
void wire_fail(const char *what);
#endif
