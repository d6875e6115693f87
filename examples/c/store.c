/*
 * A firmware and its store: format, power on, write, a power cut in the middle of a write, power on, read. The same twice,
 * with a store of each edition: nothing but the format is told which. Between them the first one's image is converted.
 * Prints what happens; `store.stdout` beside this file is what it must print. With the names of two files it writes there
 * the images that the two stores leave, as the program `dump` reads them: N (1 byte), S (2 bytes) and the area.
 */
#include "kurdavel.h"

#include <inttypes.h>
#include <stdio.h>
#include <stdlib.h>
#include <string.h>

enum { SLOTS = 4, SLOT_BYTES = 256, CELLS = 16 };

/* One caller, which may use every table. */
static const struct kurdavel_tables all = {0, UINT16_MAX};

/* The medium: all that survives a cut. */
static uint8_t medium[SLOTS * SLOT_BYTES];

/* Memory that a cut loses. */
static uint32_t cells[CELLS];
static uint8_t work[SLOT_BYTES];

static void expect_accepted(const char *call, uint32_t answer) {
    if (answer != KURDAVEL_ACCEPTED) {
        printf("%s: refused %u\n", call, (unsigned)answer);
        exit(1);
    }
}

/* What is lent, with a record that every call refuses until a recovery is accepted. */
static void lend(struct kurdavel_store *store) {
    memset(store, 0, sizeof *store);
    store->area.slots = SLOTS;
    store->area.slot_bytes = SLOT_BYTES;
    store->area.bytes = medium;
    store->area.length = sizeof medium;
    store->index.cells = cells;
    store->index.length = CELLS;
    store->work.bytes = work;
    store->work.length = sizeof work;
}

/* Power on: the medium alone gives the record and the index. The slots are read from the last to the first. */
static void power_on(struct kurdavel_store *store) {
    static const uint8_t order[SLOTS] = {3, 2, 1, 0};
    memset(cells, 0xa5, sizeof cells);
    memset(work, 0xa5, sizeof work);
    lend(store);
    expect_accepted("recover", kurdavel_store_recover(store, order, sizeof order));
    printf("power on: edition %u, next version %" PRIu64 ", keys %u\n",
           (unsigned)store->record.words[KURDAVEL_WORD_EDITION], kurdavel_store_next_version(store),
           (unsigned)store->record.words[KURDAVEL_WORD_KEYS]);
}

/* Starts a write of eight equal bytes; gives how many stores are to come. */
static uint32_t start_write(struct kurdavel_store *store, struct kurdavel_key key, uint8_t byte) {
    uint8_t value[8];
    uint32_t stores = 0;
    memset(value, byte, sizeof value);
    expect_accepted("write", kurdavel_store_write(store, all, key, value, sizeof value, &stores));
    printf("write %u/%u: %u stores to come\n", (unsigned)key.table, (unsigned)key.key, (unsigned)stores);
    return stores;
}

/* Where the medium lies behind a cache or a write buffer: makes what is stored durable. Here there is nothing to do. */
static void barrier(void) {}

/* Makes so many stores of the pending operation. */
static void steps(struct kurdavel_store *store, uint32_t count) {
    uint32_t left = 0, i;
    uint64_t version = 0;
    for (i = 0; i < count; i++) {
        expect_accepted("step", kurdavel_store_step(store, &left, &version));
        barrier();
    }
    printf("%u stores made, %u left, version %" PRIu64 "\n", (unsigned)count, (unsigned)left, version);
}

static void show(const struct kurdavel_store *store, struct kurdavel_key key) {
    struct kurdavel_value value;
    uint64_t version = 0;
    uint32_t kind = 0, i;
    uint32_t answer = kurdavel_store_read(store, all, key, &version, &kind);
    if (kurdavel_store_read_value(store, all, key, &value) != answer) exit(1);
    if (answer == KURDAVEL_REFUSED_ABSENT) {
        printf("read %u/%u: absent\n", (unsigned)key.table, (unsigned)key.key);
        return;
    }
    expect_accepted("read", answer);
    printf("read %u/%u: version %" PRIu64 ", kind %u, value", (unsigned)key.table, (unsigned)key.key, version,
           (unsigned)kind);
    for (i = 0; i < value.length; i++) printf(" %02x", value.bytes[i]);
    printf("\n");
}

/* Writes the image for `dump`. */
static void save(const char *name) {
    static const uint8_t sizes[3] = {SLOTS, SLOT_BYTES & 0xff, SLOT_BYTES >> 8};
    FILE *file = fopen(name, "wb");
    if (file == NULL || fwrite(sizes, 1, sizeof sizes, file) != sizeof sizes ||
        fwrite(medium, 1, sizeof medium, file) != sizeof medium || fclose(file) != 0) {
        perror(name);
        exit(1);
    }
}

/* The life of a store of an edition. Its image goes to the file, if one is named. */
static void live(enum kurdavel_edition edition, const char *file) {
    struct kurdavel_store store;
    struct kurdavel_key key = {7, 9}, other = {7, 10};
    lend(&store);
    expect_accepted("format", kurdavel_store_format(&store.area, edition));
    power_on(&store);

    steps(&store, start_write(&store, key, 0x11));
    show(&store, key);

    /* Power fails one store before the end of a second write of the key: the first one stands. */
    steps(&store, start_write(&store, key, 0x22) - 1);
    show(&store, key);
    printf("power fails\n");
    power_on(&store);
    show(&store, key);

    /* Once all stores are made the new value stands, whatever happens. */
    steps(&store, start_write(&store, key, 0x22));
    printf("power fails\n");
    power_on(&store);
    show(&store, key);
    show(&store, other);

    if (file != NULL) save(file);
}

/* On the bench: the image that a store has left, put into the other edition. It holds the same keys, versions and values. */
static void convert(void) {
    static uint8_t converted[sizeof medium];
    struct kurdavel_store store;
    struct kurdavel_key key = {7, 9};
    expect_accepted("convert", kurdavel_convert(SLOTS, SLOT_BYTES, medium, sizeof medium, converted, sizeof converted));
    printf("converted\n");
    memcpy(medium, converted, sizeof medium);
    power_on(&store);
    show(&store, key);
}

int main(int count, char **arguments) {
    live(KURDAVEL_EDITION_1, count > 1 ? arguments[1] : NULL);
    convert();
    live(KURDAVEL_EDITION_2, count > 2 ? arguments[2] : NULL);
    return 0;
}
