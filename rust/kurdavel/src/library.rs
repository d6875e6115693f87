//! The functions of the static library, as `include/kurdavel.h` declares them: a slice is a pointer and its length in
//! elements.

extern "C" {
    pub(crate) fn kurdavel_format(
        slots: u32,
        slot_bytes: u32,
        edition: u32,
        area: *mut u8,
        area_bytes: usize,
    ) -> u32;

    pub(crate) fn kurdavel_recover(
        slots: u32,
        slot_bytes: u32,
        order: *const u8,
        order_bytes: usize,
        area: *const u8,
        area_bytes: usize,
        index: *mut u32,
        index_words: usize,
        record: *mut u32,
        record_words: usize,
    ) -> u32;

    pub(crate) fn kurdavel_read(
        record: *const u32,
        record_words: usize,
        area: *const u8,
        area_bytes: usize,
        index: *const u32,
        index_words: usize,
        first: u16,
        last: u16,
        table: u16,
        key: u32,
        version: *mut u64,
        kind: *mut u32,
    ) -> u32;

    pub(crate) fn kurdavel_read_value(
        record: *const u32,
        record_words: usize,
        area: *const u8,
        area_bytes: usize,
        index: *const u32,
        index_words: usize,
        first: u16,
        last: u16,
        table: u16,
        key: u32,
        place: *mut u32,
        bytes: *mut u32,
    ) -> u32;

    pub(crate) fn kurdavel_write(
        record: *mut u32,
        record_words: usize,
        area: *const u8,
        area_bytes: usize,
        index: *const u32,
        index_words: usize,
        work: *mut u8,
        work_bytes: usize,
        first: u16,
        last: u16,
        table: u16,
        key: u32,
        value: *const u8,
        value_bytes: usize,
        stores: *mut u32,
    ) -> u32;

    pub(crate) fn kurdavel_write_expecting(
        record: *mut u32,
        record_words: usize,
        area: *const u8,
        area_bytes: usize,
        index: *const u32,
        index_words: usize,
        work: *mut u8,
        work_bytes: usize,
        first: u16,
        last: u16,
        table: u16,
        key: u32,
        expected: u64,
        value: *const u8,
        value_bytes: usize,
        stores: *mut u32,
    ) -> u32;

    pub(crate) fn kurdavel_delete(
        record: *mut u32,
        record_words: usize,
        area: *const u8,
        area_bytes: usize,
        index: *const u32,
        index_words: usize,
        work: *mut u8,
        work_bytes: usize,
        first: u16,
        last: u16,
        table: u16,
        key: u32,
        stores: *mut u32,
    ) -> u32;

    pub(crate) fn kurdavel_clean(
        record: *mut u32,
        record_words: usize,
        area: *const u8,
        area_bytes: usize,
        index: *const u32,
        index_words: usize,
        work: *mut u8,
        work_bytes: usize,
        victims: u32,
        stores: *mut u32,
    ) -> u32;

    pub(crate) fn kurdavel_step(
        record: *mut u32,
        record_words: usize,
        area: *mut u8,
        area_bytes: usize,
        index: *mut u32,
        index_words: usize,
        work: *const u8,
        work_bytes: usize,
        left: *mut u32,
        version: *mut u64,
    ) -> u32;

    pub(crate) fn kurdavel_next_store(
        record: *const u32,
        record_words: usize,
        area: *const u8,
        area_bytes: usize,
        work: *const u8,
        work_bytes: usize,
        place: *mut u32,
        byte: *mut u32,
    ) -> u32;

    pub(crate) fn kurdavel_fewest(record: *const u32, record_words: usize, slot: *mut u32) -> u32;

    pub(crate) fn kurdavel_switch(record: *mut u32, record_words: usize) -> u32;

    pub(crate) fn kurdavel_join(
        record: *const u32,
        record_words: usize,
        area: *const u8,
        area_bytes: usize,
        index: *const u32,
        index_words: usize,
        first: *mut u32,
        second: *mut u32,
    ) -> u32;

    pub(crate) fn kurdavel_scan_read(
        slots: u32,
        slot_bytes: u32,
        area: *const u8,
        area_bytes: usize,
        first: u16,
        last: u16,
        table: u16,
        key: u32,
        version: *mut u64,
        kind: *mut u32,
    ) -> u32;

    pub(crate) fn kurdavel_scan_read_value(
        slots: u32,
        slot_bytes: u32,
        area: *const u8,
        area_bytes: usize,
        first: u16,
        last: u16,
        table: u16,
        key: u32,
        place: *mut u32,
        bytes: *mut u32,
    ) -> u32;

    pub(crate) fn kurdavel_convert(
        slots: u32,
        slot_bytes: u32,
        source: *const u8,
        source_bytes: usize,
        target: *mut u8,
        target_bytes: usize,
    ) -> u32;

    pub(crate) fn kurdavel_from_float(
        value: *const u8,
        value_bytes: usize,
        converted: *mut u8,
    ) -> u32;

    pub(crate) fn kurdavel_to_float(
        value: *const u8,
        value_bytes: usize,
        converted: *mut u8,
    ) -> u32;
}
