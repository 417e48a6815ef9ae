#include "drawn_lines.h"

#include <stdarg.h>
#include <stdlib.h>
#include <string.h>

#include "judge.h"
#include "words.h"

#define SLAVES 32
#define MOST_SCRIPT 3000000 /* the program reads 4,194,304 bytes at most */

const char *folder;
unsigned long commands;

void end_script(struct line *line) {
    if (line->script && (fclose(line->script) || fclose(line->answers))) exit(2);
    line->script = line->answers = NULL;
}

static FILE *created(unsigned number, const char *kind) {
    char name[4096];
    snprintf(name, sizeof name, "%s/%u.%s", folder, number, kind);
    FILE *file = fopen(name, "wb");
    if (!file) exit(2);
    return file;
}

void begin_script(struct line *line, const uint8_t *text, size_t size, unsigned number, unsigned task) {
    static unsigned scripts;
    if (!folder || number == ZANGJULF_MEMORY) return;
    line->script = created(scripts, "in");
    line->answers = created(scripts++, "out");
    fwrite(text, 1, size, line->script);
    fprintf(line->script, "%%%%\n");
    if (!number) return;
    print_opening(line->answers, number, task);
    end_script(line);
}

bool is_scripted(struct line *line, unsigned number) {
    if (line->script && ftell(line->script) > MOST_SCRIPT) end_script(line);
    return line->script && number != ZANGJULF_MEMORY && number != ZANGJULF_ROOM && number < ZANGJULF_BUSY;
}

void say(struct line *line, const char *format, ...) {
    va_list arguments;
    va_start(arguments, format);
    vfprintf(line->script, format, arguments);
    va_end(arguments);
    commands++;
}

/* The machine of a slave, by its station address: a new one at first; one of others where there are too many. */
static uint8_t *machine_of(uint16_t station) {
    static struct guarded machines[SLAVES];
    static uint16_t each[SLAVES];
    static int count;
    int i = 0;
    while (i < count && each[i] != station) i++;
    if (i == SLAVES) i = station % SLAVES;
    if (i == count) {
        machines[count] = guard(ZANGJULF_SLAVE_MEMORY);
        each[count++] = station;
        uint8_t *memory = last(&machines[i], ZANGJULF_SLAVE_MEMORY);
        if (zangjulf_slave_start(memory, ZANGJULF_SLAVE_MEMORY, (uint16_t)i)) fail("a fresh slave", 0);
        memcpy(memory + 0x10, &station, 2);
    }
    return last(&machines[i], ZANGJULF_SLAVE_MEMORY);
}

void keep(struct line *line, const uint8_t *frame, size_t size) {
    size_t i = line->last_frame = (line->last_frame + 1) % FRAMES;
    uint16_t station;
    memcpy(line->frames[i], frame, size);
    line->frame_sizes[i] = size;
    if (!below(8)) return;
    for (uint32_t k = 0; !zangjulf_station(&line->handle, k, &station); k++) {
        uint8_t *in = last(&ins, size);
        memcpy(in, line->frames[i], size);
        if (zangjulf_slave_process(machine_of(station), ZANGJULF_SLAVE_MEMORY, in, size)) fail("a slave", 0);
        memcpy(line->frames[i], in, size);
    }
}
