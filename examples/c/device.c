/*
 * A store on a device that is not memory, such as serial FRAM behind a driver: the area is a copy in RAM, and every byte
 * that a step stores is put on the device before the next step is made. The power fails between the two.
 * Prints what happens; `device.stdout` beside this file is what it must print.
 */
#include "kurdavel.h"

#include <inttypes.h>
#include <stdio.h>
#include <stdlib.h>
#include <string.h>

enum { SLOTS = 4, SLOT_BYTES = 256, AREA_BYTES = SLOTS * SLOT_BYTES, CELLS = 16 };

static const struct kurdavel_tables all = {0, UINT16_MAX};
static const struct kurdavel_key key = {7, 9};

/* What survives a cut, and how the firmware reaches it: byte by byte, through the driver. */
static uint8_t device[AREA_BYTES];
static unsigned written;

static void write_byte(uint32_t place, uint8_t byte) {
    device[place] = byte;
    written++;
}

static uint8_t read_byte(uint32_t place) { return device[place]; }

/* Memory that a cut loses, the copy of the device among it. */
static uint8_t copy[AREA_BYTES];
static uint32_t cells[CELLS];
static uint8_t work[SLOT_BYTES];

static void expect_accepted(const char *call, uint32_t answer) {
    if (answer != KURDAVEL_ACCEPTED) {
        printf("%s: refused %u\n", call, (unsigned)answer);
        exit(1);
    }
}

static void lend(struct kurdavel_store *store) {
    memset(store, 0, sizeof *store);
    store->area.slots = SLOTS;
    store->area.slot_bytes = SLOT_BYTES;
    store->area.bytes = copy;
    store->area.length = sizeof copy;
    store->index.cells = cells;
    store->index.length = CELLS;
    store->work.bytes = work;
    store->work.length = sizeof work;
}

/* A new device: format makes its stores in one call, so the whole copy is put on the device after it. */
static void format_device(void) {
    struct kurdavel_store store;
    uint32_t place;
    lend(&store);
    expect_accepted("format", kurdavel_store_format(&store.area, KURDAVEL_EDITION_1));
    for (place = 0; place < AREA_BYTES; place++) write_byte(place, copy[place]);
    written = 0;
}

/* Power on: nothing is left in RAM. The copy is read from the device, and the store recovered from the copy. */
static void power_on(struct kurdavel_store *store) {
    static const uint8_t order[SLOTS] = {0, 1, 2, 3};
    uint32_t place;
    memset(copy, 0xa5, sizeof copy);
    memset(cells, 0xa5, sizeof cells);
    memset(work, 0xa5, sizeof work);
    for (place = 0; place < AREA_BYTES; place++) copy[place] = read_byte(place);
    lend(store);
    expect_accepted("recover", kurdavel_store_recover(store, order, sizeof order));
    printf("power on: next version %" PRIu64, kurdavel_store_next_version(store));
}

/* What a read of the key answers. */
static void show(const struct kurdavel_store *store) {
    struct kurdavel_value value;
    uint32_t answer = kurdavel_store_read_value(store, all, key, &value);
    if (answer == KURDAVEL_REFUSED_ABSENT) {
        printf(", the key is absent\n");
        return;
    }
    expect_accepted("read", answer);
    printf(", the key's value is %02x..\n", value.bytes[0]);
}

static uint32_t start_write(struct kurdavel_store *store, int byte) {
    uint8_t value[8];
    uint32_t stores = 0;
    memset(value, byte, sizeof value);
    expect_accepted("write", kurdavel_store_write(store, all, key, value, sizeof value, &stores));
    return stores;
}

/*
 * One store: told, made on the copy, and then put on the device. Gives the stores left. Where the power fails after the
 * step, the device never gets the byte.
 */
static uint32_t store_through(struct kurdavel_store *store, int power_fails) {
    uint32_t place = 0, byte = 0, left = 0;
    uint64_t version = 0;
    expect_accepted("next store", kurdavel_store_next_store(store, &place, &byte));
    expect_accepted("step", kurdavel_store_step(store, &left, &version));
    if (power_fails) return left;
    write_byte(place, (uint8_t)byte);
    if (memcmp(copy, device, sizeof copy) != 0) {
        printf("the device is not the copy\n");
        exit(1);
    }
    return left;
}

/* A write that the power ends between the copy's store and the device's, with so many stores on the device. */
static void cut_write(struct kurdavel_store *store, int byte, uint32_t on_device) {
    uint32_t stores = start_write(store, byte), left = stores, i;
    for (i = 0; i < on_device; i++) store_through(store, 0);
    left = store_through(store, 1);
    printf("write of %02x..: %u stores, %u made on the copy, %u on the device", (unsigned)byte, (unsigned)stores,
           (unsigned)(stores - left), (unsigned)on_device);
    show(store);
    printf("power fails\n");
}

int main(void) {
    struct kurdavel_store store;
    uint32_t left, place = 77, byte = 77;
    format_device();
    power_on(&store);
    show(&store);

    /* Cut in the middle of the entry, and before the device has the last store: the copy had it all, the device decides. */
    cut_write(&store, 0x11, 7);
    power_on(&store);
    show(&store);
    cut_write(&store, 0x22, 19);
    power_on(&store);
    show(&store);

    /* The device gets every store before the next step: the write has taken effect, whatever happens. */
    written = 0;
    left = start_write(&store, 0x33);
    while (left > 0) left = store_through(&store, 0);
    printf("write of 33..: %u bytes written to the device", written);
    show(&store);
    printf("power fails\n");
    power_on(&store);
    show(&store);

    /* The device of a second write stays one store behind at its very end: the first value stands. */
    cut_write(&store, 0x44, 19);
    power_on(&store);
    show(&store);
    printf("next store of an idle store: %u", (unsigned)kurdavel_store_next_store(&store, &place, &byte));
    printf(", place %u and byte %u\n", (unsigned)place, (unsigned)byte);
    return 0;
}
