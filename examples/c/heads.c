/*
 * Two drives, and their story made safe: a head's old record, its position as a 32-bit float, is read, converted into
 * whole counts and written under another key; then the old record is deleted and its slot cleaned. The power is cut
 * after each of the stores of all that, each time on a fresh copy of the drive, and at power on the firmware goes on
 * from what it finds. Prints what was found; `heads.stdout` beside this file is what it must print.
 */
#include "kurdavel.h"

#include <stdio.h>
#include <stdlib.h>
#include <string.h>

enum { SLOTS = 4, SLOT_BYTES = 256, CELLS = 16 };

static const struct kurdavel_tables all = {0, UINT16_MAX};
static const struct kurdavel_key old_key = {1, 9}, new_key = {2, 9};

/* 16,777,218 counts from the inner edge, as a float; then four bytes of its owner's. */
static const uint8_t old_record[8] = {0x01, 0x00, 0x80, 0x4b, 'h', 'e', 'a', 'd'};
static const uint8_t new_record[8] = {0x02, 0x00, 0x00, 0x01, 'h', 'e', 'a', 'd'};

static uint8_t medium[SLOTS * SLOT_BYTES];
static uint32_t cells[CELLS];
static uint8_t work[SLOT_BYTES];

/* The stores that can be made before the power fails. */
static uint32_t power;

static void expect(int holds, const char *what) {
    if (!holds) {
        printf("not so: %s\n", what);
        exit(1);
    }
}

static void power_on(struct kurdavel_store *store) {
    static const uint8_t order[SLOTS] = {2, 0, 3, 1};
    memset(store, 0, sizeof *store);
    memset(cells, 0xa5, sizeof cells);
    memset(work, 0xa5, sizeof work);
    store->area.slots = SLOTS;
    store->area.slot_bytes = SLOT_BYTES;
    store->area.bytes = medium;
    store->area.length = sizeof medium;
    store->index.cells = cells;
    store->index.length = CELLS;
    store->work.bytes = work;
    store->work.length = sizeof work;
    expect(kurdavel_store_recover(store, order, sizeof order) == KURDAVEL_ACCEPTED, "recovery is accepted");
}

/* Makes the stores of a started operation; 0 if the power fails before the last. */
static int finish(struct kurdavel_store *store, uint32_t stores) {
    uint32_t left;
    uint64_t version;
    for (; stores > 0; stores--) {
        if (power == 0) return 0;
        power--;
        expect(kurdavel_store_step(store, &left, &version) == KURDAVEL_ACCEPTED, "a step is accepted");
    }
    return 1;
}

static int has(const struct kurdavel_store *store, struct kurdavel_key key, const uint8_t *bytes) {
    struct kurdavel_value value;
    uint32_t answer = kurdavel_store_read_value(store, all, key, &value);
    if (answer == KURDAVEL_REFUSED_ABSENT) return 0;
    expect(answer == KURDAVEL_ACCEPTED && value.length == 8 && memcmp(value.bytes, bytes, 8) == 0,
           "a record that is there is whole");
    return 1;
}

static int write_record(struct kurdavel_store *store, struct kurdavel_key key, const uint8_t *bytes) {
    uint32_t stores = 0;
    expect(kurdavel_store_write(store, all, key, bytes, 8, &stores) == KURDAVEL_ACCEPTED, "a write is accepted");
    return finish(store, stores);
}

/* Where the old record is there, its counts go under the new key; only then it is deleted. */
static int move_record(struct kurdavel_store *store) {
    struct kurdavel_value value;
    uint8_t counts[8];
    uint32_t stores = 0;
    if (!has(store, old_key, old_record)) return 1;
    if (!has(store, new_key, new_record)) {
        kurdavel_store_read_value(store, all, old_key, &value);
        expect(kurdavel_from_float(value.bytes, value.length, counts) == KURDAVEL_ACCEPTED, "the float is a count");
        if (!write_record(store, new_key, counts)) return 0;
    }
    expect(kurdavel_store_delete(store, all, old_key, &stores) == KURDAVEL_ACCEPTED, "a delete is accepted");
    return finish(store, stores);
}

/* The slot of the head, with the tombstone, is cleaned; an older copy of the old record stays in another slot. */
static int clean_head(struct kurdavel_store *store) {
    uint32_t stores = 0, head = store->record.words[KURDAVEL_WORD_HEAD];
    expect(kurdavel_store_clean(store, 1u << head, &stores) == KURDAVEL_ACCEPTED, "a cleaning is accepted");
    return finish(store, stores);
}

/* A drive with the old record in two slots: written until the second slot has it too. */
static void make_drive(void) {
    struct kurdavel_store store;
    struct kurdavel_area area = {SLOTS, SLOT_BYTES, medium, sizeof medium};
    expect(kurdavel_store_format(&area, KURDAVEL_EDITION_1) == KURDAVEL_ACCEPTED, "the format is accepted");
    power_on(&store);
    power = UINT32_MAX;
    while (store.record.words[KURDAVEL_WORD_HEAD] == 0) write_record(&store, old_key, old_record);
}

static void convert(const char *what, uint32_t (*call)(const uint8_t *, size_t, uint8_t *), uint32_t position) {
    uint8_t value[8] = {0, 0, 0, 0, 'h', 'e', 'a', 'd'}, converted[8];
    uint32_t answer, i;
    for (i = 0; i < 4; i++) value[i] = (uint8_t)(position >> (8 * i));
    answer = call(value, sizeof value, converted);
    printf("%s: %s %u\n", what, answer == KURDAVEL_ACCEPTED ? "accepted" : "refused", (unsigned)answer);
}

int main(void) {
    static uint8_t drive[sizeof medium];
    static const char *const found[] = {"neither record", "the old record alone", "the new record alone",
                                        "both records, the same position"};
    struct kurdavel_store store;
    uint32_t cut, from = 0, last = 0, finished = 0;
    make_drive();
    memcpy(drive, medium, sizeof medium);

    for (cut = 0; !finished; cut++) {
        uint32_t state;
        memcpy(medium, drive, sizeof medium);
        power_on(&store);
        power = cut;
        finished = move_record(&store) && clean_head(&store);

        power_on(&store);
        state = (uint32_t)has(&store, old_key, old_record) + 2u * (uint32_t)has(&store, new_key, new_record);
        if (cut > 0 && state != last) {
            printf("cut after %u to %u stores: %s\n", (unsigned)from, (unsigned)(cut - 1), found[last]);
            from = cut;
        }
        last = state;

        power = UINT32_MAX;
        expect(move_record(&store) && clean_head(&store), "the move is finished");
        power_on(&store);
        expect(!has(&store, old_key, old_record), "the old record stays away");
        expect(has(&store, new_key, new_record), "the new record is there");
    }
    printf("cut after %u to %u stores: %s\n", (unsigned)from, (unsigned)(cut - 1), found[last]);
    printf("finished at power on: the new record alone, whatever the cut\n");

    convert("float 16777218 to counts", kurdavel_from_float, 0x4b800001u);
    convert("float 0.5 to counts", kurdavel_from_float, 0x3f000000u);
    convert("float -0 to counts", kurdavel_from_float, 0x80000000u);
    convert("16777217 counts to float", kurdavel_to_float, 16777217u);
    return 0;
}
