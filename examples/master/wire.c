#define _GNU_SOURCE
#include "wire.h"

#include <arpa/inet.h>
#include <linux/if_ether.h>
#include <linux/if_packet.h>
#include <net/if.h>
#include <poll.h>
#include <pthread.h>
#include <sched.h>
#include <signal.h>
#include <stdatomic.h>
#include <stdio.h>
#include <stdlib.h>
#include <string.h>
#include <sys/mman.h>
#include <sys/socket.h>
#include <sys/wait.h>
#include <time.h>
#include <unistd.h>

#define ETHERCAT 0x88a4
#define SLAVES_PRIORITY 40

/* What both processes see of a slave. */
struct seen {
    atomic_bool is_there, has_contact;
    atomic_uchar output;
};

static struct seen *seen;
static int device;
static long sent_at, back_at;
static FILE *capture;
static pid_t slaves;

void wire_fail(const char *what) {
    printf("%s\n", what);
    exit(1);
}

static int open_device(const char *name) {
    struct sockaddr_ll at = {.sll_family = AF_PACKET, .sll_protocol = htons(ETHERCAT), .sll_ifindex = (int)if_nametoindex(name)};
    int opened = socket(AF_PACKET, SOCK_RAW, htons(ETHERCAT));
    if (opened >= 0 && !bind(opened, (struct sockaddr *)&at, sizeof at)) return opened;
    perror(name);
    exit(1);
}

/* The next frame that comes in, waited for until a time, or for ever if that is below 0; 0 if none comes. */
static size_t receive(int from_device, uint8_t *frame, long until) {
    struct pollfd waits = {.fd = from_device, .events = POLLIN};
    for (;;) {
        long left = until < 0 ? SECOND : until - wire_now();
        struct timespec rest = {left > 0 ? left / SECOND : 0, left > 0 ? left % SECOND : 0};
        struct sockaddr_ll from;
        socklen_t size = sizeof from;
        if (ppoll(&waits, 1, &rest, NULL) <= 0) {
            if (until < 0) continue;
            return 0;
        }
        ssize_t count = recvfrom(from_device, frame, ZANGJULF_FRAME, 0, (struct sockaddr *)&from, &size);
        if (count > 0 && from.sll_pkttype != PACKET_OUTGOING) return (size_t)count;
    }
}

/* The slaves' process: frames go through all that are there, and come back; then each slave's inputs are its outputs. */
static void serve_slaves(const struct wire_slave *of, size_t count) {
    static uint8_t memory[MOST_SLAVES][ZANGJULF_SLAVE_MEMORY];
    uint8_t frame[ZANGJULF_FRAME];
    int own = open_device("ecat1");
    wire_priority(SLAVES_PRIORITY);
    for (size_t i = 0; i < count; i++) {
        if (zangjulf_slave_start(memory[i], sizeof memory[i], 0)) exit(1);
        memcpy(&memory[i][0x10], &of[i].station, 2);
    }
    for (;;) {
        size_t size = receive(own, frame, -1);
        for (size_t i = 0; i < count; i++) {
            if (!atomic_load(&seen[i].is_there) || !atomic_load(&seen[i].has_contact)) continue;
            if (zangjulf_slave_process(memory[i], sizeof memory[i], frame, size)) exit(1);
            memcpy(&memory[i][of[i].inputs], &memory[i][of[i].outputs], of[i].bytes);
            atomic_store(&seen[i].output, memory[i][of[i].outputs]);
        }
        if (send(own, frame, size, 0) < 0) exit(1);
    }
}

/* Opens a capture of Ethernet frames in the format of libpcap, with times in microseconds. */
static void open_capture(const char *name) {
    const uint32_t head[] = {0xa1b2c3d4, 2 | 4 << 16, 0, 0, 65535, 1};
    capture = fopen(name, "wb");
    if (!capture || fwrite(head, sizeof head, 1, capture) != 1) wire_fail("the capture can't be written");
}

static void record(const uint8_t *frame, size_t size) {
    if (!capture) return;
    struct timespec time;
    clock_gettime(CLOCK_REALTIME, &time);
    const uint32_t head[] = {(uint32_t)time.tv_sec, (uint32_t)(time.tv_nsec / 1000), (uint32_t)size, (uint32_t)size};
    fwrite(head, sizeof head, 1, capture);
    fwrite(frame, size, 1, capture);
}

/* The slaves' process goes into a namespace of its own, says so, and begins when its device is there. */
static void start_slaves(const struct wire_slave *of, size_t count, const int *ready, const int *begin) {
    char byte = 0;
    if (unshare(CLONE_NEWNET) || write(ready[1], &byte, 1) != 1 || read(begin[0], &byte, 1) != 1) _exit(1);
    if (system("ip link set dev ecat1 up")) _exit(1);
    serve_slaves(of, count);
}

bool wire_open(const struct wire_slave *of, size_t count, const char *capture_name) {
    int ready[2], begin[2];
    char command[160], byte = 0;
    uint8_t frame[ZANGJULF_FRAME];
    seen = mmap(NULL, MOST_SLAVES * sizeof *seen, PROT_READ | PROT_WRITE, MAP_SHARED | MAP_ANONYMOUS, -1, 0);
    if (seen == MAP_FAILED || count > MOST_SLAVES || pipe(ready) || pipe(begin)) wire_fail("there is no memory");
    for (size_t i = 0; i < count; i++) wire_plug(i, true, true);
    if (unshare(CLONE_NEWNET)) return false;
    slaves = fork();
    if (!slaves) start_slaves(of, count, ready, begin);
    close(ready[1]);
    if (read(ready[0], &byte, 1) != 1) return false;
    snprintf(command, sizeof command, "ip link add name ecat0 type veth peer name ecat1 && ip link set ecat1 netns %d && ip link set dev ecat0 up", (int)slaves);
    if (system(command) || write(begin[1], &byte, 1) != 1) {
        kill(slaves, SIGKILL);
        return false;
    }
    close(ready[0]), close(begin[0]), close(begin[1]);
    device = open_device("ecat0");
    usleep(300000); /* the devices come up */
    while (receive(device, frame, 0)) continue;
    if (capture_name) open_capture(capture_name);
    return true;
}

void wire_close(void) {
    kill(slaves, SIGKILL);
    waitpid(slaves, NULL, 0);
    close(device);
    if (capture && fclose(capture)) wire_fail("the capture can't be written");
    capture = NULL;
}

void wire_plug(size_t slave, bool is_there, bool has_contact) {
    atomic_store(&seen[slave].is_there, is_there);
    atomic_store(&seen[slave].has_contact, has_contact);
}

uint8_t wire_output(size_t slave) { return atomic_load(&seen[slave].output); }

void wire_send(const uint8_t *frames, const struct zangjulf_frame *table, size_t count) {
    struct mmsghdr messages[ZANGJULF_FRAME_COUNT + 1];
    struct iovec pieces[ZANGJULF_FRAME_COUNT + 1];
    memset(messages, 0, count * sizeof *messages);
    for (size_t i = 0; i < count; i++) {
        pieces[i] = (struct iovec){(uint8_t *)frames + table[i].offset, table[i].size};
        messages[i].msg_hdr.msg_iov = &pieces[i], messages[i].msg_hdr.msg_iovlen = 1;
        record(frames + table[i].offset, table[i].size);
    }
    sent_at = wire_now();
    for (size_t sent = 0; sent < count;) {
        int more = sendmmsg(device, messages + sent, (unsigned)(count - sent), 0);
        if (more < 0) wire_fail("a frame can't be sent");
        sent += (size_t)more;
    }
}

size_t wire_receive(uint8_t *frame, long until) {
    size_t size = receive(device, frame, until);
    if (size) back_at = wire_now(), record(frame, size);
    return size;
}

long wire_took(bool is_back) { return (is_back ? back_at : wire_now()) - sent_at; }

size_t wire_pass(const uint8_t *frame, size_t size, uint8_t *returned) {
    const struct zangjulf_frame all = {0, (uint32_t)size};
    wire_send(frame, &all, 1);
    size_t came = wire_receive(returned, wire_now() + 2 * SECOND);
    if (!came) wire_fail("a frame doesn't return");
    return came;
}

long wire_now(void) {
    struct timespec time;
    clock_gettime(CLOCK_MONOTONIC, &time);
    return time.tv_sec * SECOND + time.tv_nsec;
}

void wire_wait(long until) {
    struct timespec at = {until / SECOND, until % SECOND};
    clock_nanosleep(CLOCK_MONOTONIC, TIMER_ABSTIME, &at, NULL);
}

void wire_priority(int priority) {
    struct sched_param param = {.sched_priority = priority};
    pthread_setschedparam(pthread_self(), SCHED_FIFO, &param);
}
