#define _GNU_SOURCE
#include "draws.h"

#include <stdio.h>
#include <stdlib.h>
#include <string.h>
#include <sys/mman.h>

static uint64_t state;

void begin_draws(uint64_t seed) { state = seed * 2 + 1; }

uint64_t draw(void) {
    state ^= state << 13;
    state ^= state >> 7;
    state ^= state << 17;
    return state * 0x2545f4914f6cdd1dULL >> 11;
}

uint64_t below(uint64_t n) { return draw() % n; }

size_t some_length(size_t most) {
    switch (below(6)) {
    case 0: return 0;
    case 1: return below(most + 1);
    case 2: return below(80) % (most + 1);
    default: return most;
    }
}

struct guarded guard(size_t size) {
    size_t whole = (size + PAGE - 1) / PAGE * PAGE;
    uint8_t *at = mmap(NULL, whole + PAGE, PROT_READ | PROT_WRITE, MAP_PRIVATE | MAP_ANONYMOUS, -1, 0);
    if (at == MAP_FAILED || mprotect(at + whole, PAGE, PROT_NONE)) exit(2);
    return (struct guarded){at + whole, size};
}

uint8_t *last(const struct guarded *room, size_t size) { return room->end - size; }

/* Groups that are declared have aliases and stations from these on. */
#define DECLARED_ALIAS 900
#define DECLARED_STATION 9000

/* The numbers after a key in the project. */
struct numbers {
    uint16_t each[64];
    size_t count;
};
static struct numbers stations, aliases, pdos;
char text[1 << 16];
size_t text_size;

static struct numbers numbers_after(const char *key) {
    struct numbers found = {{0}, 0};
    for (const char *at = text; (at = strstr(at, key)) && found.count < 64; at += strlen(key))
        found.each[found.count++] = (uint16_t)strtoul(at + strlen(key), NULL, 0);
    return found;
}

/* One of them, one of eight of declared groups, or any. */
static uint16_t some(const struct numbers *numbers, uint16_t declared) {
    switch (below(8)) {
    case 0: return (uint16_t)draw();
    case 1: return (uint16_t)(declared + below(8));
    default: return numbers->count ? numbers->each[below(numbers->count)] : 0;
    }
}

uint16_t some_station(void) { return some(&stations, DECLARED_STATION); }

uint16_t some_alias(void) { return below(8) ? some(&aliases, DECLARED_ALIAS) : 0; }

uint16_t some_pdo(void) { return some(&pdos, 1); }

bool read_project(const char *name) {
    FILE *in = fopen(name, "rb");
    if (!in) return false;
    text_size = fread(text, 1, sizeof text - 1, in);
    fclose(in);
    char *end = strstr(text, "\n%%\n");
    if (end) text_size = (size_t)(end + 1 - text);
    text[text_size] = 0;
    stations = numbers_after("station = "), aliases = numbers_after("alias = "), pdos = numbers_after("index = ");
    return text_size > 0;
}

uint8_t *some_group(const struct guarded *room, size_t *size) {
    static const char form[] = "[[group]]\nalias = %u\n[[group.slave]]\nstation = %u\n[[group.slave.area]]\nsm = %u\ndir = \"%s\"\nphys = 0x1000\n"
                               "task = %u\nassigned = [1]\npdo = [{ index = 1, entries = [[%u, %u]] }]\n";
    unsigned alias = below(4) ? DECLARED_ALIAS + (unsigned)below(8) : some_alias();
    unsigned station = below(4) ? DECLARED_STATION + (unsigned)below(8) : some_station();
    unsigned variable = below(4) ? 200 + (unsigned)below(50) : (unsigned)below(130);
    const char *way = below(2) ? "out" : "in";
    char own[1024];
    *size = (size_t)snprintf(own, sizeof own, form, alias, station, (unsigned)below(17), way, (unsigned)below(9), variable, (unsigned)below(65));
    if (!below(4)) own[below(*size)] = (char)draw();
    if (!below(8)) *size = below(*size);
    if (*size) own[*size - 1] = '\n';
    return memcpy(last(room, *size), own, *size);
}
