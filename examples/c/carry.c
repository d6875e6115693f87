/*
 * A drive in service is carried over from edition 1 to edition 2, without a format, and the power fails on the way. First the
 * firmware asks whether the way over is open. It is not: the slots are too full for entries that take 4 bytes more. So room is
 * made while the store is of edition 1, and then slot after slot is cleaned, which rewrites it.
 * Prints what happens; `carry.stdout` beside this file is what it must print.
 */
#include "kurdavel.h"

#include <inttypes.h>
#include <stdio.h>
#include <stdlib.h>
#include <string.h>

enum { SLOTS = 4, SLOT_BYTES = 256, CELLS = 64, KEYS = 36, OLD_SLOT = 5 };

/* One caller, which may use every table. */
static const struct kurdavel_tables all = {0, UINT16_MAX};

/* The medium: all that survives a cut. */
static uint8_t medium[SLOTS * SLOT_BYTES];

/* Memory that a cut loses. */
static uint32_t cells[CELLS];
static uint8_t work[SLOT_BYTES];

static const uint8_t order[SLOTS] = {0, 1, 2, 3};

static void expect_accepted(const char *call, uint32_t answer) {
    if (answer != KURDAVEL_ACCEPTED) {
        printf("%s: refused %u\n", call, (unsigned)answer);
        exit(1);
    }
}

static struct kurdavel_key key_of(uint32_t number) {
    struct kurdavel_key key;
    key.table = 1;
    key.key = number;
    return key;
}

/* What is lent, with a record that every call refuses until a recovery is accepted. */
static void lend(struct kurdavel_store *store) {
    memset(store, 0, sizeof *store);
    store->area.slots = SLOTS;
    store->area.slot_bytes = SLOT_BYTES;
    store->area.bytes = medium;
    store->area.length = sizeof medium;
    store->index.cells = cells;
    store->index.length = CELLS;
    store->work.bytes = work;
    store->work.length = sizeof work;
}

/* Power on: the medium alone gives the record and the index. */
static void power_on(struct kurdavel_store *store) {
    memset(cells, 0xa5, sizeof cells);
    memset(work, 0xa5, sizeof work);
    lend(store);
    expect_accepted("recover", kurdavel_store_recover(store, order, sizeof order));
    printf("power on: edition %u, switched %u\n", (unsigned)store->record.words[KURDAVEL_WORD_EDITION],
           (unsigned)store->record.words[KURDAVEL_WORD_SWITCHED]);
}

/* Makes so many stores of the pending operation. */
static void steps(struct kurdavel_store *store, uint32_t count) {
    uint32_t left = 0, i;
    uint64_t version = 0;
    for (i = 0; i < count; i++) expect_accepted("step", kurdavel_store_step(store, &left, &version));
}

static int in_log(const struct kurdavel_store *store, uint32_t slot) {
    return (int)(store->record.words[KURDAVEL_WORD_MAP] >> slot & 1);
}

/* Whether a slot of the log is still of edition 1. */
static int is_old(const struct kurdavel_store *store, uint32_t slot) {
    return in_log(store, slot) && medium[slot * SLOT_BYTES] == OLD_SLOT;
}

/*
 * Asks whether the way over is open, while the head is of edition 1: a cleaning of each slot alone is started in the switched
 * store. A start changes neither area nor index, and the recovery after it forgets the start and the switch.
 */
static int way_is_open(struct kurdavel_store *store) {
    uint32_t slot, stores = 0, old = 0;
    int open = 1;
    for (slot = 0; slot < SLOTS; slot++) {
        uint32_t answer;
        if (!in_log(store, slot)) continue;
        old++;
        expect_accepted("switch", kurdavel_store_switch(store));
        answer = kurdavel_store_clean(store, 1u << slot, &stores);
        printf("slot %u in edition 2: %u\n", (unsigned)slot, (unsigned)answer);
        open = open && answer == KURDAVEL_ACCEPTED;
        expect_accepted("recover", kurdavel_store_recover(store, order, sizeof order));
    }
    open = open && store->record.words[KURDAVEL_WORD_DIGEST] <= UINT32_MAX - old;
    printf("the way over is %s\n", open ? "open" : "not open");
    return open;
}

static void clean(struct kurdavel_store *store, uint32_t slot) {
    uint32_t stores = 0;
    expect_accepted("clean", kurdavel_store_clean(store, 1u << slot, &stores));
    steps(store, stores);
}

static unsigned present(const struct kurdavel_store *store, unsigned *in_edition_2) {
    uint64_t version = 0;
    uint32_t kind = 0, number;
    unsigned count = 0;
    *in_edition_2 = 0;
    for (number = 0; number < KEYS; number++) {
        if (kurdavel_store_read(store, all, key_of(number), &version, &kind) != KURDAVEL_ACCEPTED) continue;
        count++;
        *in_edition_2 += kind >= 9;
    }
    return count;
}

static void show(const struct kurdavel_store *store) {
    unsigned in_edition_2 = 0, count = present(store, &in_edition_2);
    printf("%u keys present, %u of them in edition 2, next version %" PRIu64 "\n", count, in_edition_2,
           kurdavel_store_next_version(store));
}

/* The drive as it is in service: three full slots of edition 1. */
static void in_service(struct kurdavel_store *store) {
    uint32_t number, stores = 0;
    lend(store);
    expect_accepted("format", kurdavel_store_format(&store->area, KURDAVEL_EDITION_1));
    power_on(store);
    for (number = 0; number < KEYS; number++) {
        uint8_t value[8];
        memset(value, (int)number, sizeof value);
        expect_accepted("write", kurdavel_store_write(store, all, key_of(number), value, sizeof value, &stores));
        steps(store, stores);
    }
    show(store);
}

/* A quarter of the keys is deleted, and each slot is cleaned, so that the bytes of what was deleted are gone. */
static void make_room(struct kurdavel_store *store) {
    uint32_t number, slot, round, stores = 0;
    for (number = 0; number < KEYS; number += 4) {
        expect_accepted("delete", kurdavel_store_delete(store, all, key_of(number), &stores));
        steps(store, stores);
    }
    for (round = 0; round < 2; round++) {
        for (slot = 0; slot < SLOTS; slot++) {
            if (in_log(store, slot)) clean(store, slot);
        }
    }
    show(store);
}

int main(void) {
    struct kurdavel_store store;
    uint32_t slot, stores = 0;
    in_service(&store);
    if (way_is_open(&store)) return 1;
    make_room(&store);
    if (!way_is_open(&store)) return 1;

    /* Power fails during the first cleaning: the head is still of edition 1, so the switch is forgotten. */
    expect_accepted("switch", kurdavel_store_switch(&store));
    for (slot = 0; !is_old(&store, slot); slot++) continue;
    expect_accepted("clean", kurdavel_store_clean(&store, 1u << slot, &stores));
    steps(&store, stores - 1);
    printf("cleaning of slot %u: %u of %u stores made, power fails\n", (unsigned)slot, (unsigned)(stores - 1),
           (unsigned)stores);
    power_on(&store);
    show(&store);

    /* Once a head of edition 2 is made, a recovery finds it, and no further switch is needed. */
    expect_accepted("switch", kurdavel_store_switch(&store));
    clean(&store, slot);
    printf("slot %u cleaned, power fails\n", (unsigned)slot);
    power_on(&store);
    show(&store);

    for (slot = 0; slot < SLOTS; slot++) {
        if (!is_old(&store, slot)) continue;
        clean(&store, slot);
        printf("slot %u cleaned\n", (unsigned)slot);
    }
    printf("power fails\n");
    power_on(&store);
    show(&store);
    return 0;
}
