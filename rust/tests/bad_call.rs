//! The C functions with buffers of the wrong length: 255, and nothing is changed. The safe functions cannot lend such.
#![cfg(archive)]

use nvs_page::sys::*;
use nvs_page::{RECORD_SIZE, Record, SECTOR_SIZE};

const BAD_CALL: u32 = 255;

/// A buffer of each kind, and what they held.
struct Buffers {
    image: Vec<u8>,
    record: Vec<u8>,
    answer: Vec<u8>,
}

impl Buffers {
    fn new() -> Self {
        let record = Record::default().as_bytes().to_vec();
        Buffers { image: vec![0xFF; SECTOR_SIZE], record, answer: vec![0xA5; 57] }
    }

    fn untouched(&self) -> bool {
        let new = Buffers::new();
        self.image == new.image && self.record == new.record && self.answer == new.answer
    }
}

#[test]
fn calls_with_an_answer() {
    let mut buffers = Buffers::new();
    let (image, map) = (buffers.image.clone(), [0xFF; 32]);
    let answer = buffers.answer.as_mut_ptr();
    // Safety: no length is over that of its buffer.
    unsafe {
        assert_eq!(nvs_width(1, answer, 56), BAD_CALL);
        assert_eq!(nvs_load(image.as_ptr(), 4096, 0, answer, 56), BAD_CALL);
        assert_eq!(nvs_raw_read(image.as_ptr(), 4096, 0, answer, 0), BAD_CALL);
        assert_eq!(nvs_load_data(image.as_ptr(), 4096, 0, std::ptr::dangling_mut(), 0, answer, 56), BAD_CALL);
        assert_eq!(nvs_entry_state(map.as_ptr(), 31, 0, answer, 57), BAD_CALL);
        assert_eq!(nvs_entry_state(map.as_ptr(), 32, 0, answer, 56), BAD_CALL);
        assert_eq!(nvs_statistics(map.as_ptr(), 31, answer, 57), BAD_CALL);
        assert_eq!(nvs_statistics(map.as_ptr(), 32, answer, 56), BAD_CALL);
        assert_eq!(nvs_hash_bound(map.as_ptr(), 31, image.as_ptr(), 4032, answer, 57), BAD_CALL);
        assert_eq!(nvs_hash_bound(map.as_ptr(), 32, image.as_ptr(), 4031, answer, 57), BAD_CALL);
        assert_eq!(nvs_hash_bound(map.as_ptr(), 32, image.as_ptr(), 4032, answer, 56), BAD_CALL);
    }
    assert!(buffers.untouched());
}

#[test]
fn calls_with_a_record() {
    let mut buffers = Buffers::new();
    let (image, record) = (buffers.image.as_mut_ptr(), buffers.record.as_mut_ptr());
    let (source, bytes) = ([0xFF; SECTOR_SIZE], [0u8; 16]);
    let (key, short) = (bytes.as_ptr(), RECORD_SIZE - 1);
    let stop = u64::MAX;
    // Safety: no length is over that of its buffer.
    unsafe {
        assert_eq!(nvs_open(image, 4096, record, short), BAD_CALL);
        assert_eq!(nvs_open_stopped(image, 4096, record, short, stop), BAD_CALL);
        assert_eq!(nvs_initialise(image, 4096, record, short, 1, stop), BAD_CALL);
        assert_eq!(nvs_mark_full(image, 4096, record, short), BAD_CALL);
        assert_eq!(nvs_append_single(image, 4096, record, short, 1, 1, 1, 0, key, 16, key, 8, stop), BAD_CALL);
        assert_eq!(nvs_append_single(image, 4096, record, 675, 1, 1, 1, 0, key, 15, key, 8, stop), BAD_CALL);
        assert_eq!(nvs_append_single(image, 4096, record, 675, 1, 1, 1, 0, key, 16, key, 7, stop), BAD_CALL);
        assert_eq!(nvs_append_namespace(image, 4096, record, short, key, 16, 1, stop), BAD_CALL);
        assert_eq!(nvs_append_namespace(image, 4096, record, 675, key, 15, 1, stop), BAD_CALL);
        assert_eq!(nvs_append_variable(image, 4096, record, short, 1, 0x21, 0, key, 16, key, 8, stop), BAD_CALL);
        assert_eq!(nvs_append_variable(image, 4096, record, 675, 1, 0x21, 0, key, 15, key, 8, stop), BAD_CALL);
        assert_eq!(nvs_copy_in(image, 4096, record, short, source.as_ptr(), 4096, 0, stop), BAD_CALL);
        assert_eq!(nvs_erase(image, 4096, record, short, 0, 1), BAD_CALL);
        assert_eq!(nvs_purge_namespace(image, 4096, record, short, 1), BAD_CALL);
    }
    assert!(buffers.untouched());
}

/// BadCall comes before BadImage.
#[test]
fn bad_call_is_checked_first() {
    let mut buffers = Buffers::new();
    let (image, record) = (buffers.image.as_mut_ptr(), buffers.record.as_mut_ptr());
    // Safety: no length is over that of its buffer.
    unsafe {
        assert_eq!(nvs_mark_full(image, 4095, record, 674), BAD_CALL);
        assert_eq!(nvs_load(image, 4095, 0, buffers.answer.as_mut_ptr(), 56), BAD_CALL);
    }
    assert!(buffers.untouched());
}

/// A sum of too few bytes is no sum: BadCall, and the answer stays.
#[test]
fn sums_of_the_wrong_length() {
    let mut buffers = Buffers::new();
    let (bytes, answer) = ([1u8; 32], buffers.answer.as_mut_ptr());
    // Safety: no length is over that of its buffer.
    unsafe {
        assert_eq!(nvs_item_crc(bytes.as_ptr(), 31, answer, 57), BAD_CALL);
        assert_eq!(nvs_item_crc(bytes.as_ptr(), 32, answer, 56), BAD_CALL);
        assert_eq!(nvs_header_crc(bytes.as_ptr(), 31, answer, 57), BAD_CALL);
        assert_eq!(nvs_header_crc(bytes.as_ptr(), 32, answer, 56), BAD_CALL);
        assert_eq!(nvs_hash(1, bytes.as_ptr(), 15, 0, answer, 57), BAD_CALL);
        assert_eq!(nvs_hash(1, bytes.as_ptr(), 16, 0, answer, 56), BAD_CALL);
    }
    assert!(buffers.untouched());
}

/// A refusal leaves no byte of the answer but its type, and a refused opening the Uninitialized record.
#[test]
fn refusals_leave_zeros() {
    let mut buffers = Buffers::new();
    buffers.image[0] = 0;
    buffers.record.fill(0xA5);
    let (image, record, answer) =
        (buffers.image.as_mut_ptr(), buffers.record.as_mut_ptr(), buffers.answer.as_mut_ptr());
    // Safety: each length is that of its buffer.
    unsafe {
        assert_eq!(nvs_open(image, 4096, record, 675), 9);
        assert_eq!(nvs_width(0x21, answer, 57), 8);
    }
    assert_eq!(buffers.record, Record::default().as_bytes());
    assert_eq!((buffers.answer[0], &buffers.answer[1..]), (0x21, &[0; 56][..]));
}

/// A state byte over 5 is BadRecord, after BadImage, and stays where it was.
#[test]
fn no_state_is_a_bad_record() {
    for state in [6, 255] {
        let mut buffers = Buffers::new();
        buffers.record[0] = state;
        let before = buffers.record.clone();
        let (image, record) = (buffers.image.as_mut_ptr(), buffers.record.as_mut_ptr());
        // Safety: no length is over that of its buffer.
        unsafe {
            assert_eq!(nvs_initialise(image, 4095, record, 675, 1, u64::MAX), 1);
            assert_eq!(nvs_initialise(image, 4096, record, 675, 1, u64::MAX), 2);
            assert_eq!(nvs_erase(image, 4096, record, 675, 0, 1), 2);
        }
        assert_eq!(buffers.record, before);
        assert!(buffers.image.iter().all(|&byte| byte == 0xFF));
    }
}
