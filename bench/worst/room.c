/* Prints what memory a line of one slave takes, and a seat of it: bytes that the C library's allocator gave. */
#include <malloc.h>
#include <stdio.h>

#include "zangjulf.h"

static const char PROJECT[] =
    "[[slave]]\nstation = 1001\n"
    "[[slave.area]]\nsm = 0\ndir = \"out\"\nphys = 0x1000\ntask = 0\nassigned = [1]\n"
    "pdo = [{ index = 1, entries = [[1, 16]] }]\n"
    "[[slave.area]]\nsm = 1\ndir = \"in\"\nphys = 0x1400\ntask = 0\nassigned = [2]\n"
    "pdo = [{ index = 2, entries = [[11, 16]] }]\n";

static size_t given(void) {
    struct mallinfo2 info = mallinfo2();
    return info.uordblks + info.hblkhd;
}

int main(void) {
    struct zangjulf line = {0};
    struct zangjulf_seat seat = {0};
    const struct zangjulf_options options = {sizeof options, 0};
    uint8_t over_limit;
    size_t none = given();
    if (zangjulf_open(&line, &options, (const uint8_t *)PROJECT, sizeof PROJECT - 1, &over_limit)) return 1;
    size_t open = given();
    if (zangjulf_seat_open(&line, 0, &seat)) return 1;
    printf("a line of one slave: %zu bytes; a seat: %zu more\n", open - none, given() - open);
    return 0;
}
