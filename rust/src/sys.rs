//! The C functions as they are, in the order of `boundary/nvs_page.h`, which says when each number comes.
//!
//! A slice is a pointer and its length. Each function is total: any bytes, any lengths. What is left to the caller is
//! that each pointer is good for its length, and that no slice overlaps one that is written.

unsafe extern "C" {
    pub fn nvs_crc32(start: u32, data: *const u8, data_length: usize) -> u32;

    pub fn nvs_item_crc(item: *const u8, item_length: usize, answer: *mut u8, answer_length: usize) -> u32;

    pub fn nvs_header_crc(header: *const u8, header_length: usize, answer: *mut u8, answer_length: usize) -> u32;

    pub fn nvs_hash(
        namespace_index: u8,
        key: *const u8,
        key_length: usize,
        chunk: u8,
        answer: *mut u8,
        answer_length: usize,
    ) -> u32;

    pub fn nvs_type_byte(byte: u8) -> u8;

    pub fn nvs_width(byte: u8, answer: *mut u8, answer_length: usize) -> u32;

    pub fn nvs_load(image: *const u8, image_length: usize, index: u64, answer: *mut u8, answer_length: usize) -> u32;

    pub fn nvs_raw_read(
        image: *const u8,
        image_length: usize,
        index: u64,
        answer: *mut u8,
        answer_length: usize,
    ) -> u32;

    pub fn nvs_load_data(
        image: *const u8,
        image_length: usize,
        index: u64,
        output: *mut u8,
        output_length: usize,
        answer: *mut u8,
        answer_length: usize,
    ) -> u32;

    pub fn nvs_entry_state(map: *const u8, map_length: usize, index: u64, answer: *mut u8, answer_length: usize)
    -> u32;

    pub fn nvs_statistics(map: *const u8, map_length: usize, answer: *mut u8, answer_length: usize) -> u32;

    pub fn nvs_hash_bound(
        map: *const u8,
        map_length: usize,
        entries: *const u8,
        entries_length: usize,
        answer: *mut u8,
        answer_length: usize,
    ) -> u32;

    pub fn nvs_open(image: *mut u8, image_length: usize, record: *mut u8, record_length: usize) -> u32;

    pub fn nvs_open_stopped(
        image: *mut u8,
        image_length: usize,
        record: *mut u8,
        record_length: usize,
        stop: u64,
    ) -> u32;

    pub fn nvs_initialise(
        image: *mut u8,
        image_length: usize,
        record: *mut u8,
        record_length: usize,
        sequence: u32,
        stop: u64,
    ) -> u32;

    pub fn nvs_mark_full(image: *mut u8, image_length: usize, record: *mut u8, record_length: usize) -> u32;

    pub fn nvs_append_single(
        image: *mut u8,
        image_length: usize,
        record: *mut u8,
        record_length: usize,
        namespace_index: u8,
        type_byte: u8,
        span: u64,
        chunk: u8,
        key: *const u8,
        key_length: usize,
        data: *const u8,
        data_length: usize,
        stop: u64,
    ) -> u32;

    pub fn nvs_append_namespace(
        image: *mut u8,
        image_length: usize,
        record: *mut u8,
        record_length: usize,
        key: *const u8,
        key_length: usize,
        value: u8,
        stop: u64,
    ) -> u32;

    pub fn nvs_append_variable(
        image: *mut u8,
        image_length: usize,
        record: *mut u8,
        record_length: usize,
        namespace_index: u8,
        type_byte: u8,
        chunk: u8,
        key: *const u8,
        key_length: usize,
        data: *const u8,
        data_length: usize,
        stop: u64,
    ) -> u32;

    pub fn nvs_copy_in(
        target: *mut u8,
        target_length: usize,
        record: *mut u8,
        record_length: usize,
        source: *const u8,
        source_length: usize,
        index: u64,
        stop: u64,
    ) -> u32;

    pub fn nvs_erase(
        image: *mut u8,
        image_length: usize,
        record: *mut u8,
        record_length: usize,
        index: u64,
        span: u64,
    ) -> u32;

    pub fn nvs_purge(image: *mut u8, image_length: usize, index: u64, span: u64) -> u32;

    pub fn nvs_purge_namespace(
        image: *mut u8,
        image_length: usize,
        record: *mut u8,
        record_length: usize,
        namespace_index: u8,
    ) -> u32;
}
