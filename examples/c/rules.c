/*
 * The edges of the interface: refusals and what they leave, an operation that is given up, an index that is too small
 * for the log, two passes that write over what they read, two owners with tables of their own, the longest value, a full
 * store that is emptied, an idle task that chooses what to clean, two slots that are joined, a damaged digest, the versions
 * of either edition, a switch to the second, and a boot loader that has no index yet.
 * Prints what is answered; `rules.stdout` beside this file is what it must print.
 */
#include "kurdavel.h"

#include <inttypes.h>
#include <stdio.h>
#include <stdlib.h>
#include <string.h>

enum { SLOTS = 4, SLOT_BYTES = 256, CELLS = 64, FEW_CELLS = 16, KEYS = 20 };

/* The tables of two owners, which have none in common. All but the last part of this program is servo's. */
static const struct kurdavel_tables servo = {0, 99}, media = {100, 199};

static uint8_t medium[SLOTS * SLOT_BYTES];
static uint32_t cells[CELLS];
static uint8_t work[SLOT_BYTES];
static const uint8_t order[SLOTS] = {0, 1, 2, 3};

static void expect_accepted(const char *call, uint32_t answer) {
    if (answer != KURDAVEL_ACCEPTED) {
        printf("%s: refused %u\n", call, (unsigned)answer);
        exit(1);
    }
}

static struct kurdavel_key key_of(uint32_t number) {
    struct kurdavel_key key;
    key.table = 1;
    key.key = number;
    return key;
}

/* What is lent, with a record that every call refuses. */
static void lend(struct kurdavel_store *store) {
    memset(store, 0, sizeof *store);
    store->area.slots = SLOTS;
    store->area.slot_bytes = SLOT_BYTES;
    store->area.bytes = medium;
    store->area.length = sizeof medium;
    store->index.cells = cells;
    store->index.length = CELLS;
    store->work.bytes = work;
    store->work.length = sizeof work;
}

/* Makes all stores of the pending operation; gives the version that the last one tells. */
static uint64_t finish(struct kurdavel_store *store, uint32_t stores) {
    uint32_t left = stores;
    uint64_t version = 0;
    while (left > 0) expect_accepted("step", kurdavel_store_step(store, &left, &version));
    return version;
}

static uint32_t start_write(struct kurdavel_store *store, uint32_t number) {
    uint8_t value[8];
    uint32_t stores = 0;
    memset(value, (int)number, sizeof value);
    expect_accepted("write", kurdavel_store_write(store, servo, key_of(number), value, sizeof value, &stores));
    return stores;
}

static unsigned present(const struct kurdavel_store *store) {
    uint64_t version = 0;
    uint32_t kind = 0, number;
    unsigned count = 0;
    for (number = 0; number < KEYS; number++) {
        count += kurdavel_store_read(store, servo, key_of(number), &version, &kind) == KURDAVEL_ACCEPTED;
    }
    return count;
}

/* What refused calls do to the numbers that they would tell. */
static void outputs(const struct kurdavel_store *store) {
    struct kurdavel_value value = {work, 77};
    uint64_t version = 77;
    uint32_t kind = 77, left = 77;
    struct kurdavel_store copy = *store;
    unsigned answer = (unsigned)kurdavel_store_read(store, servo, key_of(KEYS), &version, &kind);
    printf("read of an absent key: %u, version %" PRIu64 " and kind %u\n", answer, version, (unsigned)kind);
    answer = (unsigned)kurdavel_store_read_value(store, servo, key_of(KEYS), &value);
    printf("its value: %u, %u bytes at %u\n", answer, (unsigned)value.length, (unsigned)(value.bytes - medium));
    answer = (unsigned)kurdavel_step(copy.record.words, KURDAVEL_RECORD_WORDS - 1, medium, sizeof medium, cells, CELLS,
                                     work, sizeof work, &left, &version);
    printf("step with a short record: %u, left %u as it was\n", answer, (unsigned)left);
    copy.record.words[KURDAVEL_WORD_PENDING] = KURDAVEL_PENDING_FORGET + 1;
    printf("step with words that are no record: %u\n", (unsigned)kurdavel_store_step(&copy, &left, &version));
    answer = (unsigned)kurdavel_recover(SLOTS - 1, SLOT_BYTES, order, sizeof order, medium, sizeof medium, cells, CELLS,
                                        copy.record.words, KURDAVEL_RECORD_WORDS - 1);
    printf("recovery with a short record and a wrong N: %u\n", answer);
}

/* A recovery gives up a write of which some stores are made. */
static void give_up(struct kurdavel_store *store) {
    uint32_t left = start_write(store, 0);
    uint64_t version = 0;
    expect_accepted("step", kurdavel_store_step(store, &left, &version));
    printf("a second start meanwhile: %u\n", (unsigned)kurdavel_store_clean(store, 1, &left));
    expect_accepted("recover", kurdavel_store_recover(store, order, sizeof order));
    printf("given up: step answers %u, %u keys present\n", (unsigned)kurdavel_store_step(store, &left, &version),
           present(store));
}

/* Recovery with too few cells answers 20, and the record is of no use until a recovery is accepted. */
static void too_few_cells(struct kurdavel_store *store) {
    uint32_t stores = 0;
    store->index.length = FEW_CELLS;
    printf("recovery with %u cells: %u\n", (unsigned)FEW_CELLS,
           (unsigned)kurdavel_store_recover(store, order, sizeof order));
    store->index.length = CELLS;
    printf("cleaning after that: %u\n", (unsigned)kurdavel_store_clean(store, 1, &stores));
    printf("recovery with %u cells: %u", (unsigned)CELLS, (unsigned)kurdavel_store_recover(store, order, sizeof order));
    printf(", %u keys present\n", present(store));
}

/* Starts a write of eight equal bytes over the version that the caller expects; gives the answer. */
static uint32_t start_over(struct kurdavel_store *store, uint32_t number, uint64_t expected, int byte,
                           uint32_t *stores) {
    uint8_t value[8];
    memset(value, byte, sizeof value);
    return kurdavel_store_write_expecting(store, servo, key_of(number), expected, value, sizeof value, stores);
}

/*
 * Two passes read the value of a key, and each writes over the version that it read. The second one comes too late: it
 * is refused, and has to read again. A deleted key has version 0, whatever version its delete took.
 */
static void two_passes(struct kurdavel_store *store, uint32_t deleted, uint64_t version_of_delete) {
    uint64_t version = 0;
    uint32_t kind = 0, stores = 0;
    expect_accepted("read", kurdavel_store_read(store, servo, key_of(0), &version, &kind));
    expect_accepted("first pass", start_over(store, 0, version, 0xa1, &stores));
    printf("first pass, over version %" PRIu64 ": version %" PRIu64 "\n", version, finish(store, stores));
    printf("second pass, over version %" PRIu64 ": %u\n", version,
           (unsigned)start_over(store, 0, version, 0xa2, &stores));
    expect_accepted("read", kurdavel_store_read(store, servo, key_of(0), &version, &kind));
    expect_accepted("second pass", start_over(store, 0, version, 0xa2, &stores));
    printf("second pass, over version %" PRIu64 ": version %" PRIu64 "\n", version, finish(store, stores));
    printf("deleted key, over version %" PRIu64 ": %u\n", version_of_delete,
           (unsigned)start_over(store, deleted, version_of_delete, 0xa3, &stores));
    expect_accepted("write of a deleted key", start_over(store, deleted, 0, 0xa3, &stores));
    printf("deleted key, over version 0: version %" PRIu64 "\n", finish(store, stores));
}

/* Reads a key for an owner and prints what is answered. */
static void read_as(const struct kurdavel_store *store, const char *owner, struct kurdavel_tables tables,
                    struct kurdavel_key key) {
    struct kurdavel_value value;
    unsigned answer = (unsigned)kurdavel_store_read_value(store, tables, key, &value);
    printf("%s reads %u/%u: %u, %u bytes\n", owner, (unsigned)key.table, (unsigned)key.key, answer,
           (unsigned)value.length);
}

/*
 * Each owner gives its own tables with every read, write and delete. First and last are among them, and a key outside
 * is refused whatever the store holds. Cleaning is common: it keeps what counts of both.
 */
static void two_owners(struct kurdavel_store *store) {
    static const struct kurdavel_tables none = {1, 0};
    static const uint8_t defects[24] = {0xde, 0xfe, 0xc7};
    struct kurdavel_key first = {100, 7}, last = {199, 7}, beyond = {200, 7};
    uint32_t stores = 0;
    expect_accepted("write", kurdavel_store_write(store, media, first, defects, sizeof defects, &stores));
    finish(store, stores);
    expect_accepted("write", kurdavel_store_write(store, media, last, defects, sizeof defects, &stores));
    finish(store, stores);
    read_as(store, "media", media, first);
    read_as(store, "media", media, last);
    read_as(store, "media", media, key_of(0));
    read_as(store, "servo", servo, key_of(0));
    read_as(store, "servo", servo, first);
    read_as(store, "nobody", none, key_of(0));
    printf("media writes past its last table: %u\n",
           (unsigned)kurdavel_store_write(store, media, beyond, defects, sizeof defects, &stores));
    printf("media deletes servo's key: %u\n", (unsigned)kurdavel_store_delete(store, media, key_of(0), &stores));
}

/* A value of the longest kind, in a store that is formatted anew; one byte more is no value. */
static void longest_value(struct kurdavel_store *store) {
    static const uint8_t adaptives[KURDAVEL_VALUE_MAX + 1] = {0x78};
    uint32_t stores = 0, kind = 0;
    uint64_t version = 0;
    expect_accepted("format", kurdavel_store_format(&store->area, KURDAVEL_EDITION_1));
    expect_accepted("recover", kurdavel_store_recover(store, order, sizeof order));
    printf("a value of %u bytes: %u\n", KURDAVEL_VALUE_MAX + 1,
           (unsigned)kurdavel_store_write(store, servo, key_of(0), adaptives, KURDAVEL_VALUE_MAX + 1, &stores));
    expect_accepted("write",
                    kurdavel_store_write(store, servo, key_of(0), adaptives, KURDAVEL_VALUE_MAX, &stores));
    printf("a value of %u bytes: %u stores", KURDAVEL_VALUE_MAX, (unsigned)stores);
    finish(store, stores);
    expect_accepted("read", kurdavel_store_read(store, servo, key_of(0), &version, &kind));
    printf(", version %" PRIu64 ", kind %u\n", version, (unsigned)kind);
}

/*
 * A store filled until a write is refused with 12. A delete is accepted all the same: where its tombstone has no room,
 * the slot of the value is cleaned. So every key can be deleted, and a cleaning of what is left gives all room back.
 */
static void full_store(struct kurdavel_store *store) {
    static const uint8_t value[KURDAVEL_VALUE_MAX] = {0xf1};
    static const size_t lengths[3] = {120, 56, 24};
    uint32_t stores = 0, number = 0, filled = 0;
    uint64_t version = 0;
    expect_accepted("format", kurdavel_store_format(&store->area, KURDAVEL_EDITION_1));
    expect_accepted("recover", kurdavel_store_recover(store, order, sizeof order));
    while (kurdavel_store_write(store, servo, key_of(filled), value, lengths[filled % 3], &stores) ==
           KURDAVEL_ACCEPTED) {
        finish(store, stores);
        filled++;
    }
    printf("%u keys present, a write of 8 bytes: %u\n", present(store),
           (unsigned)kurdavel_store_write(store, servo, key_of(0), value, 8, &stores));
    for (number = 0; number < filled; number++) {
        expect_accepted("delete", kurdavel_store_delete(store, servo, key_of(number), &stores));
        if (store->record.words[KURDAVEL_WORD_PENDING] == KURDAVEL_PENDING_FORGET) {
            printf("delete of key %u: slots %u are cleaned, %u stores\n", (unsigned)number,
                   (unsigned)store->record.words[KURDAVEL_WORD_VICTIMS], (unsigned)stores);
        }
        version = finish(store, stores);
    }
    printf("all deleted, the last with version %" PRIu64 ": %u keys present\n", version, present(store));
    expect_accepted("clean", kurdavel_store_clean(store, store->record.words[KURDAVEL_WORD_MAP], &stores));
    finish(store, stores);
    expect_accepted("write", kurdavel_store_write(store, servo, key_of(0), value, sizeof value, &stores));
    printf("cleaned, and written again with version %" PRIu64 "\n", finish(store, stores));
}

/*
 * An idle task: while fewer than two slots are free, it cleans the one that has the fewest bytes of present objects. The
 * record alone tells which; no slot is scanned.
 */
static void idle(struct kurdavel_store *store) {
    static const uint8_t value[56] = {0x1d};
    uint32_t stores = 0, slot = 77, i;
    expect_accepted("format", kurdavel_store_format(&store->area, KURDAVEL_EDITION_1));
    expect_accepted("recover", kurdavel_store_recover(store, order, sizeof order));
    for (i = 0; i < 9; i++) {
        /* Of the objects in the second slot only one is not written again. */
        uint32_t number = i < 6 ? i : i - 2;
        expect_accepted("write", kurdavel_store_write(store, servo, key_of(number), value, sizeof value, &stores));
        finish(store, stores);
    }
    printf("present bytes of the slots:");
    for (i = 0; i < SLOTS; i++) printf(" %u", (unsigned)store->record.words[KURDAVEL_WORD_PRESENT + i]);
    expect_accepted("fewest", kurdavel_store_fewest(store, &slot));
    expect_accepted("clean", kurdavel_store_clean(store, (uint32_t)1 << slot, &stores));
    printf("\nslot %u has the fewest and is cleaned in %u stores\n", (unsigned)slot, (unsigned)stores);
    finish(store, stores);
    memset(store->record.words, 0, sizeof store->record.words);
    printf("fewest of no record: %u", (unsigned)kurdavel_store_fewest(store, &slot));
    printf(", slot %u\n", (unsigned)slot);
}

/*
 * A write that meets 12: two slots are joined, and the same write is accepted. Where no two slots fit one, nothing that
 * joins helps.
 */
static void join(struct kurdavel_store *store) {
    static const uint8_t value[56] = {0x70};
    uint32_t stores = 0, first = 77, second = 77, number = 0, answer;
    expect_accepted("format", kurdavel_store_format(&store->area, KURDAVEL_EDITION_1));
    expect_accepted("recover", kurdavel_store_recover(store, order, sizeof order));
    printf("joining of one slot: %u", (unsigned)kurdavel_store_join(store, &first, &second));
    printf(", slots %u and %u\n", (unsigned)first, (unsigned)second);
    for (;;) {
        answer = kurdavel_store_write(store, servo, key_of(number % 4), value, sizeof value, &stores);
        if (answer != KURDAVEL_ACCEPTED) break;
        finish(store, stores);
        number++;
    }
    printf("write %u: %u", (unsigned)number, (unsigned)answer);
    expect_accepted("join", kurdavel_store_join(store, &first, &second));
    printf(", slots %u and %u can be joined", (unsigned)first, (unsigned)second);
    expect_accepted("clean", kurdavel_store_clean(store, (uint32_t)1 << first | (uint32_t)1 << second, &stores));
    finish(store, stores);
    expect_accepted("write", kurdavel_store_write(store, servo, key_of(number % 4), value, sizeof value, &stores));
    printf(", and it is accepted: version %" PRIu64 "\n", finish(store, stores));
}

/* What a recovery tells of a damaged digest: one byte of the head's digest is another each time. */
static void damaged_digest(struct kurdavel_store *store) {
    static const struct {
        const char *what;
        uint32_t place;
        uint8_t byte;
    } faults[4] = {{"next version 0", 9, 0},
                   {"map with a slot that there is not", 5, 0x11},
                   {"map without the head", 5, 0},
                   {"map with a slot that has no digest", 5, 0x03}};
    uint32_t i;
    for (i = 0; i < 4; i++) {
        expect_accepted("format", kurdavel_store_format(&store->area, KURDAVEL_EDITION_1));
        medium[faults[i].place] = faults[i].byte;
        printf("%s: %u\n", faults[i].what, (unsigned)kurdavel_store_recover(store, order, sizeof order));
    }
}

/*
 * The edition decides how far the versions go: of two stores with the same next version, 4,294,967,295, that of edition 1
 * has none left to give. There is no third edition, and a log has slots of both only where its head is of edition 2.
 */
static void editions(struct kurdavel_store *store) {
    static const enum kurdavel_edition both[2] = {KURDAVEL_EDITION_1, KURDAVEL_EDITION_2};
    static const uint8_t value[8] = {0xed};
    uint32_t stores = 0, kind = 0, slot = 0, i;
    uint64_t version = 0;
    printf("format in edition 3: %u\n", (unsigned)kurdavel_format(SLOTS, SLOT_BYTES, 3, medium, sizeof medium));
    for (i = 0; i < 2; i++) {
        expect_accepted("format", kurdavel_store_format(&store->area, both[i]));
        memset(medium + 9, 0xff, 4); /* the next version in the digest, as after a long life */
        expect_accepted("recover", kurdavel_store_recover(store, order, sizeof order));
        printf("edition %u, next version %" PRIu64 ", a write: ",
               (unsigned)store->record.words[KURDAVEL_WORD_EDITION], kurdavel_store_next_version(store));
        printf("%u\n", (unsigned)kurdavel_store_write(store, servo, key_of(0), value, sizeof value, &stores));
    }
    finish(store, stores);
    finish(store, start_write(store, 0));
    expect_accepted("read", kurdavel_store_read(store, servo, key_of(0), &version, &kind));
    printf("after one more: version %" PRIu64 ", kind %u\n", version, (unsigned)kind);
    store->record.words[KURDAVEL_WORD_EDITION] = 3;
    printf("record of edition 3: %u\n", (unsigned)kurdavel_store_fewest(store, &slot));

    /* The map names slot 1 too, which begins with a digest of the other edition. */
    for (i = 0; i < 2; i++) {
        expect_accepted("format", kurdavel_store_format(&store->area, both[i]));
        medium[5] = 0x03;
        memset(medium + SLOT_BYTES, 0, 17);
        medium[SLOT_BYTES] = i == 0 ? 8 : 5;
        printf("log of both editions under a head of edition %u: %u\n", (unsigned)(i + 1),
               (unsigned)kurdavel_store_recover(store, order, sizeof order));
    }
}

/* A store of edition 1 that has used up its versions is switched, and goes on in edition 2. A switch changes the record alone. */
static void switches(struct kurdavel_store *store) {
    static const uint8_t value[8] = {0x51};
    uint32_t stores = 0, kind = 0;
    uint64_t version = 0;
    expect_accepted("format", kurdavel_store_format(&store->area, KURDAVEL_EDITION_1));
    memset(medium + 9, 0xff, 4);
    medium[9] = 0xfe;
    expect_accepted("recover", kurdavel_store_recover(store, order, sizeof order));
    stores = start_write(store, 0);
    printf("switch during a write: %u\n", (unsigned)kurdavel_store_switch(store));
    finish(store, stores);
    printf("the last version is given, a write: %u\n",
           (unsigned)kurdavel_store_write(store, servo, key_of(1), value, sizeof value, &stores));
    printf("switch: %u", (unsigned)kurdavel_store_switch(store));
    printf(", and again: %u\n", (unsigned)kurdavel_store_switch(store));
    finish(store, start_write(store, 1));
    expect_accepted("read", kurdavel_store_read(store, servo, key_of(1), &version, &kind));
    printf("written into a new head: version %" PRIu64 ", kind %u", version, (unsigned)kind);
    expect_accepted("read", kurdavel_store_read(store, servo, key_of(0), &version, &kind));
    printf("; in the old slot: version %" PRIu64 ", kind %u\n", version, (unsigned)kind);
    expect_accepted("recover", kurdavel_store_recover(store, order, sizeof order));
    printf("recovered: edition %u, next version %" PRIu64 "\n", (unsigned)store->record.words[KURDAVEL_WORD_EDITION],
           kurdavel_store_next_version(store));
    store->record.words[KURDAVEL_WORD_SWITCHED] = 2;
    printf("switch of words that are no record: %u\n", (unsigned)kurdavel_store_switch(store));
}

/* A boot loader reads one value from the area alone: no index, no record, no work buffer. */
static void boot_loader(struct kurdavel_store *store) {
    struct kurdavel_area area = store->area;
    struct kurdavel_value value;
    uint32_t stores = 0, kind = 0;
    uint64_t version = 0;
    expect_accepted("format", kurdavel_store_format(&area, KURDAVEL_EDITION_1));
    expect_accepted("recover", kurdavel_store_recover(store, order, sizeof order));
    finish(store, start_write(store, 5));
    expect_accepted("delete", kurdavel_store_delete(store, servo, key_of(5), &stores));

    /* Power fails before the delete has made a store. The loader has nothing but the area. */
    memset(store, 0, sizeof *store);
    memset(cells, 0xa5, sizeof cells);
    expect_accepted("scan", kurdavel_store_scan_read(&area, servo, key_of(5), &version, &kind));
    expect_accepted("scan", kurdavel_store_scan_read_value(&area, servo, key_of(5), &value));
    printf("boot loader: version %" PRIu64 ", kind %u, %u bytes of %02x", version, (unsigned)kind,
           (unsigned)value.length, value.bytes[0]);
    printf("; another key: %u", (unsigned)kurdavel_store_scan_read(&area, servo, key_of(6), &version, &kind));
    printf("; a table of another owner: %u\n",
           (unsigned)kurdavel_store_scan_read(&area, media, key_of(5), &version, &kind));
    medium[0] = 0;
    printf("boot loader on an area without a digest: %u",
           (unsigned)kurdavel_store_scan_read(&area, servo, key_of(5), &version, &kind));
    printf(", version %" PRIu64 " and kind %u\n", version, (unsigned)kind);
}

int main(void) {
    struct kurdavel_store store;
    uint32_t number, stores = 0;
    uint64_t version;
    lend(&store);
    expect_accepted("format", kurdavel_store_format(&store.area, KURDAVEL_EDITION_1));
    printf("cleaning before a recovery: %u\n", (unsigned)kurdavel_store_clean(&store, 1, &stores));
    expect_accepted("recover", kurdavel_store_recover(&store, order, sizeof order));
    for (number = 0; number < KEYS; number++) finish(&store, start_write(&store, number));
    printf("%u keys present\n", present(&store));

    outputs(&store);
    give_up(&store);
    too_few_cells(&store);

    expect_accepted("delete", kurdavel_store_delete(&store, servo, key_of(3), &stores));
    version = finish(&store, stores);
    printf("deleted with version %" PRIu64 "\n", version);
    expect_accepted("clean", kurdavel_store_clean(&store, 1, &stores));
    finish(&store, stores);
    printf("slot 0 cleaned: %u keys present, slots of the log %u\n", present(&store),
           (unsigned)store.record.words[KURDAVEL_WORD_MAP]);
    two_passes(&store, 3, version);
    printf("%u keys present\n", present(&store));
    two_owners(&store);
    longest_value(&store);
    full_store(&store);
    idle(&store);
    join(&store);
    damaged_digest(&store);
    editions(&store);
    switches(&store);
    boot_loader(&store);
    return 0;
}
