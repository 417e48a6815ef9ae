#include "words.h"

#include "ignore.h"

static const char *const FAULTS[] = {
    "", "UnknownAlias", "AlreadyPresent", "NotPresent", "Mandatory", "UnknownStation", "Absent", "NoSuchArea", "NoSuchTask",
    "UnknownPdo", "RepeatedPdo", "AreaTooBig", "TooManyDatagrams", "EpochsSpent", "", "StalePost", "PostLength",
    "Unprogrammed", "NothingOwed", "SerialsSpent", "Short", "NotEtherCat", "BadType", "BadLength", "Circulating",
    "MoreFollows", "UnknownCommand", "IndexMismatch", "Memory", "Room", "", "AliasTaken", "StationTaken", "VariableTaken",
    "TooManyGroups", "TooManySlaves",
};

static const char *const PROJECT_FAULTS[] = {
    "", "NotToml", "MissingField", "OutOfRange", "RepeatedAlias", "RepeatedStation", "RepeatedSyncManager", "OverlappingAreas",
    "RepeatedVariable", "UnknownPdo", "AreaTooBig", "Memory", "NotOneGroup",
};

void print_opening(FILE *to, unsigned number, unsigned task) {
    if (number == ZANGJULF_TOO_MANY_DATAGRAMS) fprintf(to, "open fault 1 %s %u\n", FAULTS[number], task);
    else if (number == ZANGJULF_MEMORY) fprintf(to, "open fault 2 %s\n", FAULTS[number]);
    else fprintf(to, "project fault %u %s\n", number - 200, PROJECT_FAULTS[number - 200]);
}

/* The front of a refusal's line. */
static void print_fault(FILE *to, unsigned number) { fprintf(to, "refused %u %s", number, FAULTS[number]); }

void print_refusal(FILE *to, unsigned number) {
    print_fault(to, number);
    fprintf(to, "\n");
}

void print_hex(FILE *to, const uint8_t *bytes, size_t size) {
    for (size_t i = 0; i < size; i++) fprintf(to, "%02x", bytes[i]);
}

static void print_frame(FILE *to, const char *word, uint64_t serial, const uint8_t *frame, size_t size) {
    fprintf(to, "%s %llu: ", word, (unsigned long long)serial);
    print_hex(to, frame, size);
    fprintf(to, "\n");
}

void print_edit_answer(FILE *to, unsigned number, const struct zangjulf_cost *cost) {
    if (number == ZANGJULF_TOO_MANY_DATAGRAMS) {
        print_fault(to, number);
        fprintf(to, " %u\n", cost->crowded);
    } else if (number) {
        print_refusal(to, number);
    } else {
        fprintf(to, "epoch %u recut %u moved %u\n", cost->epoch, cost->recut, cost->moved);
    }
}

void print_declaration(FILE *to, unsigned number, const struct zangjulf_cost *cost) {
    if (number > 200 && number <= ZANGJULF_PROJECT_NOT_ONE_GROUP) fprintf(to, "declare fault %u %s\n", number - 200, PROJECT_FAULTS[number - 200]);
    else print_edit_answer(to, number, cost);
}

void print_write(FILE *to, unsigned number, uint64_t serial, const uint8_t *frame, size_t size) {
    if (number) print_refusal(to, number);
    else print_frame(to, "sent", serial, frame, size);
}

void print_unprogrammed(FILE *to, uint32_t owed) { fprintf(to, "refused 17 Unprogrammed %u\n", owed); }

void print_sending(FILE *to, unsigned number, uint64_t serial, const uint8_t *frames, const struct zangjulf_sent *sent) {
    if (number) print_refusal(to, number);
    else if (!sent->frames) fprintf(to, "no frame\n");
    for (size_t i = 0; !number && i < sent->frames; i++) {
        print_frame(to, "sent", serial + i, frames, zangjulf_frame_size(frames));
        frames += zangjulf_frame_size(frames);
    }
}

static void print_outcome(FILE *to, const struct zangjulf_outcome *outcome) {
    switch (outcome->kind) {
    case ZANGJULF_INPUTS: fprintf(to, "inputs %u %u\n", outcome->task, outcome->datagram); break;
    case ZANGJULF_WRONG_COUNT: fprintf(to, "wrong count %u %u\n", outcome->expected, outcome->got); break;
    case ZANGJULF_BLOCK_WRITTEN: fprintf(to, "write done\n"); break;
    case ZANGJULF_BLOCK_MISSED: fprintf(to, "write missed\n"); break;
    default: fprintf(to, "stale\n");
    }
}

void print_arrival(FILE *to, unsigned number, const struct zangjulf_arrival *arrival, const struct zangjulf_outcome *outcomes) {
    if (number) print_refusal(to, number);
    else if (arrival->kind == ZANGJULF_STALE) fprintf(to, "stale\n");
    for (size_t i = 0; !number && i < arrival->datagrams; i++) print_outcome(to, &outcomes[i]);
}

void print_image(FILE *to, unsigned number, const struct zangjulf *line, uint8_t task, const struct zangjulf_image *image, const uint8_t *data) {
    if (number) {
        print_refusal(to, number);
        return;
    }
    fprintf(to, "epoch %u\n", image->epoch);
    for (size_t i = 0; i < image->datagrams; i++) {
        struct zangjulf_datagram datagram = {0, 0, 0, 0};
        ignore(zangjulf_datagram(line, task, (uint8_t)i, &datagram));
        fprintf(to, "slot %zu ", i);
        if (image->has >> i & 1) print_hex(to, data + datagram.offset, datagram.length);
        else fprintf(to, "none");
        fprintf(to, "\n");
    }
}

void print_preview(FILE *to, unsigned number, unsigned task, uint64_t serial, const uint8_t *frame, size_t size) {
    if (task >= ZANGJULF_TASKS) print_refusal(to, ZANGJULF_NO_SUCH_TASK);
    else if (number) fprintf(to, "none\n");
    else print_frame(to, "frame", serial, frame, size);
}

void print_place(FILE *to, unsigned number, uint32_t variable, const struct zangjulf_place *place) {
    if (number) {
        fprintf(to, "none\n");
        return;
    }
    const char *way = place->is_input ? "in" : "out";
    fprintf(to, "var %u task %u datagram %u bit %u bits %u dir %s\n", variable, place->task, place->datagram, place->bit, place->bits, way);
}

void print_layout(FILE *to, const struct zangjulf *line) {
    uint32_t epoch = 0;
    ignore(zangjulf_epoch(line, &epoch));
    fprintf(to, "epoch %u\n", epoch);
    for (unsigned task = 0; task < ZANGJULF_TASKS; task++) {
        struct zangjulf_image_sizes sizes = {0, 0};
        struct zangjulf_datagram datagram;
        if (zangjulf_datagram(line, (uint8_t)task, 0, &datagram)) continue;
        ignore(zangjulf_image_sizes(line, (uint8_t)task, &sizes));
        fprintf(to, "task %u parts %u %u\n", task, sizes.outputs, sizes.inputs);
        for (unsigned i = 0; !zangjulf_datagram(line, (uint8_t)task, (uint8_t)i, &datagram); i++)
            fprintf(to, "datagram %u address 0x%08x length %u expected %u\n", i, datagram.address, datagram.length, datagram.expected);
    }
}

void print_blocks(FILE *to, const struct zangjulf *line, uint16_t station) {
    uint32_t position = 0;
    unsigned number = zangjulf_position(line, station, &position);
    if (number) {
        print_refusal(to, number);
        return;
    }
    struct zangjulf_block block;
    uint8_t bytes[16];
    for (unsigned i = 0; !zangjulf_block(line, station, (uint8_t)i, bytes, sizeof bytes, &block); i++) {
        /* sync managers begin at 0x0800, 8 bytes each; FMMUs at 0x0600, 16 bytes each */
        if (i % 2 == 0) fprintf(to, "sm %u at 0x%04x:", (block.start - 0x0800) / 8, block.start);
        else fprintf(to, "fmmu %u at 0x%04x:", (block.start - 0x0600) / 16, block.start);
        for (size_t k = 0; k < block.size; k++) fprintf(to, " %02x", bytes[k]);
        fprintf(to, "\n");
    }
}
