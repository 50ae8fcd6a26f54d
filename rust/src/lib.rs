//! One flash sector in the layout of the ESP-IDF's non-volatile storage: proved page calls, for firmware in Rust.
//!
//! Each function here is the C function of the same name (`sys`, `boundary/nvs_page.h`) with slices for pointers, a
//! [`Record`] for its 675 bytes and a [`Refusal`] for 01's numbers. Nothing is allocated, and nothing but [`key`] panics.
//!
//! A page is an image of 4,096 bytes and its record. [`open`] makes the record from the image, after a power cut too;
//! [`initialise`] starts a blank page. Any refusal but [`Refusal::Stopped`] leaves image and record as they were.
//!
//! ```no_run
//! use nvs_page::*;
//!
//! let mut image = [0xFF; SECTOR_SIZE];
//! let mut record = open(&mut image)?;
//! if record.state() == Some(PageState::Uninitialized) {
//!     initialise(&mut image, &mut record, 0, NO_STOP)?;
//! }
//! let curve = Variable { namespace: 1, kind: ItemType::Blob, chunk: NO_CHUNK, key: key("curve"), data: &[1, 2, 3] };
//! append_variable(&mut image, &mut record, curve, NO_STOP)?;
//!
//! let place = record.find(hash(1, &key("curve"), NO_CHUNK)).last().ok_or(Refusal::KeyNotFound)?;
//! let mut output = [0; 4];
//! let size = load_data(&image, place, &mut output)?;
//! assert_eq!(output[..size], [1, 2, 3]);
//! # Ok::<(), Refusal>(())
//! ```
#![no_std]

mod item;
mod record;
mod refusal;
pub mod sys;

pub use item::{Item, ItemType, Key, NO_CHUNK, key};
pub use record::{EntryState, Listed, PageState, RECORD_SIZE, Record};
pub use refusal::Refusal;

use refusal::answered;

pub const SECTOR_SIZE: usize = 4096;
pub const ENTRIES_PER_PAGE: usize = 126;
pub const ITEM_SIZE: usize = 32;
pub const ENTRIES_SIZE: usize = ENTRIES_PER_PAGE * ITEM_SIZE;
pub const MAP_SIZE: usize = 32;
/// The stop that never comes.
pub const NO_STOP: u64 = u64::MAX;

const ANSWER_SIZE: usize = 57;

/// An item of one entry. Its types are the eight integers and BlobIndex.
#[derive(Clone, Copy, Debug)]
pub struct Single {
    pub namespace: u8,
    pub kind: ItemType,
    pub chunk: u8,
    pub key: Key,
    pub data: [u8; 8],
}

/// An item with a payload of up to 4,000 bytes. Its types are Sized, Blob and BlobData; its namespace is not 0.
#[derive(Clone, Copy, Debug)]
pub struct Variable<'a> {
    pub namespace: u8,
    pub kind: ItemType,
    pub chunk: u8,
    pub key: Key,
    pub data: &'a [u8],
}

/// How many entries a map has in each state, 126 in all.
#[derive(Clone, Copy, Debug, PartialEq, Eq)]
pub struct Statistics {
    pub empty: u32,
    pub written: u32,
    pub erased: u32,
    pub illegal: u32,
}

/// CRC-32 as the ESP ROM has it; of "123456789" from 0 it is 0xCBF43926.
pub fn crc32(start: u32, data: &[u8]) -> u32 {
    // Safety: the pointer is good for the length.
    unsafe { sys::nvs_crc32(start, data.as_ptr(), data.len()) }
}

/// The CRC of an item as it stands, over all but the CRC in it.
pub fn item_crc(item: &[u8; ITEM_SIZE]) -> u32 {
    let mut answer = [0; ANSWER_SIZE];
    // Safety: each pointer is good for its length.
    unsafe { sys::nvs_item_crc(item.as_ptr(), item.len(), answer.as_mut_ptr(), answer.len()) };
    number_in(&answer) as u32
}

/// The CRC of a page's header as it stands, over bytes 4 to 28.
pub fn header_crc(header: &[u8; ITEM_SIZE]) -> u32 {
    let mut answer = [0; ANSWER_SIZE];
    // Safety: each pointer is good for its length.
    unsafe { sys::nvs_header_crc(header.as_ptr(), header.len(), answer.as_mut_ptr(), answer.len()) };
    number_in(&answer) as u32
}

/// The 24-bit hash under which a record lists an item. Items share hashes: load the item to see whether it is the one.
pub fn hash(namespace: u8, key: &Key, chunk: u8) -> u32 {
    let mut answer = [0; ANSWER_SIZE];
    // Safety: each pointer is good for its length.
    unsafe { sys::nvs_hash(namespace, key.as_ptr(), key.len(), chunk, answer.as_mut_ptr(), answer.len()) };
    number_in(&answer) as u32
}

/// The byte, or 0xFF where it is none of the thirteen types.
pub fn type_byte(byte: u8) -> u8 {
    // Safety: nothing is lent.
    unsafe { sys::nvs_type_byte(byte) }
}

/// How many bytes an integer of this type has.
///
/// ItemTypeMismatch: it is no integer type.
pub fn width(byte: u8) -> Result<usize, Refusal> {
    let mut answer = [0; ANSWER_SIZE];
    // Safety: the pointer is good for the length.
    let number = unsafe { sys::nvs_width(byte, answer.as_mut_ptr(), answer.len()) };
    answered(number, &answer)?;
    Ok(number_in(&answer))
}

/// The item at an index. The map is not asked: an erased item still loads.
///
/// BadImage; CorruptedData: the index is over 125; KeyNotFound: the entry is all 0xFF, of an unknown type,
/// or its CRC is wrong.
pub fn load(image: &[u8], index: usize) -> Result<Item, Refusal> {
    let mut answer = [0; ANSWER_SIZE];
    let (bytes, length) = (answer.as_mut_ptr(), answer.len());
    // Safety: each pointer is good for its length.
    let number = unsafe { sys::nvs_load(image.as_ptr(), image.len(), index as u64, bytes, length) };
    answered(number, &answer)?;
    Ok(Item(item_in(&answer)))
}

/// The bytes of an entry as they are.
///
/// BadImage; CorruptedData: the index is over 125.
pub fn raw_read(image: &[u8], index: usize) -> Result<[u8; ITEM_SIZE], Refusal> {
    let mut answer = [0; ANSWER_SIZE];
    let (bytes, length) = (answer.as_mut_ptr(), answer.len());
    // Safety: each pointer is good for its length.
    let number = unsafe { sys::nvs_raw_read(image.as_ptr(), image.len(), index as u64, bytes, length) };
    answered(number, &answer)?;
    Ok(item_in(&answer))
}

/// The payload of the item at an index, into the start of the output; its size comes back. The output needs room for the
/// size rounded up to 4. The payload's CRC is not checked: [`Item::payload_crc`] has it.
///
/// As [`load`]; ItemTypeMismatch: it has no payload; CorruptedData: its span or size leaves the page, or the output is
/// too short.
pub fn load_data(image: &[u8], index: usize, output: &mut [u8]) -> Result<usize, Refusal> {
    let mut answer = [0; ANSWER_SIZE];
    // Safety: each pointer is good for its length, and the borrows keep what is written apart.
    let number = unsafe {
        sys::nvs_load_data(
            image.as_ptr(),
            image.len(),
            index as u64,
            output.as_mut_ptr(),
            output.len(),
            answer.as_mut_ptr(),
            answer.len(),
        )
    };
    answered(number, &answer)?;
    Ok(number_in(&answer))
}

/// The state that a map holds for an entry.
///
/// CorruptedData: the index is over 125.
pub fn entry_state(map: &[u8; MAP_SIZE], index: usize) -> Result<EntryState, Refusal> {
    let mut answer = [0; ANSWER_SIZE];
    let (bytes, length) = (answer.as_mut_ptr(), answer.len());
    // Safety: each pointer is good for its length.
    let number = unsafe { sys::nvs_entry_state(map.as_ptr(), map.len(), index as u64, bytes, length) };
    answered(number, &answer)?;
    Ok(EntryState::of_bits(number_in(&answer) as u8))
}

/// How many entries a map has in each state.
pub fn statistics(map: &[u8; MAP_SIZE]) -> Statistics {
    let mut answer = [0; ANSWER_SIZE];
    // Safety: each pointer is good for its length.
    unsafe { sys::nvs_statistics(map.as_ptr(), map.len(), answer.as_mut_ptr(), answer.len()) };
    let count = |at: usize| u32::from_le_bytes([answer[at], answer[at + 1], answer[at + 2], answer[at + 3]]);
    Statistics { empty: count(41), written: count(45), erased: count(49), illegal: count(53) }
}

/// How many items outside namespace 0 a walk from header to header meets: room to reserve, not a count to rely on.
pub fn hash_bound(map: &[u8; MAP_SIZE], entries: &[u8; ENTRIES_SIZE]) -> usize {
    let mut answer = [0; ANSWER_SIZE];
    let (bytes, length) = (answer.as_mut_ptr(), answer.len());
    // Safety: each pointer is good for its length.
    unsafe { sys::nvs_hash_bound(map.as_ptr(), map.len(), entries.as_ptr(), entries.len(), bytes, length) };
    number_in(&answer)
}

/// Settles what a power cut left, in the map alone, and hands back the page's record.
///
/// BadImage; CorruptedData: neither blank nor a page whose header is right.
pub fn open(image: &mut [u8]) -> Result<Record, Refusal> {
    let mut record = Record::default();
    let bytes = &mut record.0;
    // Safety: each pointer is good for its length, and the record is a buffer of its own.
    let number = unsafe { sys::nvs_open(image.as_mut_ptr(), image.len(), bytes.as_mut_ptr(), bytes.len()) };
    done(number)?;
    Ok(record)
}

/// Opens a page as [`open`] does, and stops after `stop` units, as a power cut would.
///
/// BadImage; CorruptedData; Stopped: open the page again.
pub fn open_stopped(image: &mut [u8], stop: u64) -> Result<Record, Refusal> {
    let mut record = Record::default();
    let bytes = &mut record.0;
    let (pointer, length) = (bytes.as_mut_ptr(), bytes.len());
    // Safety: each pointer is good for its length, and the record is a buffer of its own.
    let number = unsafe { sys::nvs_open_stopped(image.as_mut_ptr(), image.len(), pointer, length, stop) };
    done(number)?;
    Ok(record)
}

/// Writes the header of a blank page, which is Active then.
///
/// BadImage; BadRecord; WrongState: not Uninitialized; CorruptedData: the image is not all 0xFF; Stopped.
pub fn initialise(image: &mut [u8], record: &mut Record, sequence: u32, stop: u64) -> Result<(), Refusal> {
    let bytes = &mut record.0;
    // Safety: each pointer is good for its length, and the borrows keep what is written apart.
    done(unsafe {
        sys::nvs_initialise(image.as_mut_ptr(), image.len(), bytes.as_mut_ptr(), bytes.len(), sequence, stop)
    })
}

/// Writes the state Full.
///
/// BadImage; BadRecord; WrongState: not Active.
pub fn mark_full(image: &mut [u8], record: &mut Record) -> Result<(), Refusal> {
    let bytes = &mut record.0;
    // Safety: each pointer is good for its length, and the borrows keep what is written apart.
    done(unsafe { sys::nvs_mark_full(image.as_mut_ptr(), image.len(), bytes.as_mut_ptr(), bytes.len()) })
}

/// Appends an item of one entry.
///
/// BadImage; BadRecord; WrongState: not Active; BadRequest: its type is none of a single's; PageFull; Stopped.
pub fn append_single(image: &mut [u8], record: &mut Record, item: Single, stop: u64) -> Result<(), Refusal> {
    let bytes = &mut record.0;
    // Safety: each pointer is good for its length, and the borrows keep what is written apart.
    done(unsafe {
        sys::nvs_append_single(
            image.as_mut_ptr(),
            image.len(),
            bytes.as_mut_ptr(),
            bytes.len(),
            item.namespace,
            item.kind as u8,
            1,
            item.chunk,
            item.key.as_ptr(),
            item.key.len(),
            item.data.as_ptr(),
            item.data.len(),
            stop,
        )
    })
}

/// Appends the entry that gives a namespace its number.
///
/// BadImage; BadRecord; WrongState: not Active; PageFull; Stopped.
pub fn append_namespace(image: &mut [u8], record: &mut Record, key: &Key, value: u8, stop: u64) -> Result<(), Refusal> {
    let bytes = &mut record.0;
    // Safety: each pointer is good for its length, and the borrows keep what is written apart.
    done(unsafe {
        sys::nvs_append_namespace(
            image.as_mut_ptr(),
            image.len(),
            bytes.as_mut_ptr(),
            bytes.len(),
            key.as_ptr(),
            key.len(),
            value,
            stop,
        )
    })
}

/// Appends an item with a payload.
///
/// BadImage; BadRecord; WrongState: not Active; BadRequest: its type has no payload, or its namespace is 0; ValueTooLong:
/// over 4,000 bytes; PageFull; Stopped.
pub fn append_variable(image: &mut [u8], record: &mut Record, item: Variable, stop: u64) -> Result<(), Refusal> {
    let bytes = &mut record.0;
    // Safety: each pointer is good for its length, and the borrows keep what is written apart.
    done(unsafe {
        sys::nvs_append_variable(
            image.as_mut_ptr(),
            image.len(),
            bytes.as_mut_ptr(),
            bytes.len(),
            item.namespace,
            item.kind as u8,
            item.chunk,
            item.key.as_ptr(),
            item.key.len(),
            item.data.as_ptr(),
            item.data.len(),
            stop,
        )
    })
}

/// Appends an item of another page, byte for byte.
///
/// BadImage of either; BadRecord; WrongState: not Active; CorruptedData: the index is over 125; KeyNotFound; CorruptedData:
/// its span is 0 or leaves the source; PageFull; Stopped.
pub fn copy_in(target: &mut [u8], record: &mut Record, source: &[u8], index: usize, stop: u64) -> Result<(), Refusal> {
    let bytes = &mut record.0;
    // Safety: each pointer is good for its length, and the borrows keep what is written apart.
    done(unsafe {
        sys::nvs_copy_in(
            target.as_mut_ptr(),
            target.len(),
            bytes.as_mut_ptr(),
            bytes.len(),
            source.as_ptr(),
            source.len(),
            index as u64,
            stop,
        )
    })
}

/// Marks entries Erased.
///
/// BadImage; BadRecord; WrongState: not Active, Full or Freeing; CorruptedData: the span is 0 or leaves the page;
/// NotWritten.
pub fn erase(image: &mut [u8], record: &mut Record, index: usize, span: usize) -> Result<(), Refusal> {
    let bytes = &mut record.0;
    let (index, span) = (index as u64, span as u64);
    // Safety: each pointer is good for its length, and the borrows keep what is written apart.
    done(unsafe { sys::nvs_erase(image.as_mut_ptr(), image.len(), bytes.as_mut_ptr(), bytes.len(), index, span) })
}

/// Zeroes the bytes of entries, at least one and none past the page; from index 126 on nothing.
///
/// BadImage.
pub fn purge(image: &mut [u8], index: usize, span: usize) -> Result<(), Refusal> {
    // Safety: the pointer is good for the length.
    done(unsafe { sys::nvs_purge(image.as_mut_ptr(), image.len(), index as u64, span as u64) })
}

/// Zeroes the bytes of every Erased item of a namespace, in whatever state the page is.
///
/// BadImage; BadRecord.
pub fn purge_namespace(image: &mut [u8], record: &mut Record, namespace: u8) -> Result<(), Refusal> {
    let bytes = &mut record.0;
    // Safety: each pointer is good for its length, and the borrows keep what is written apart.
    done(unsafe {
        sys::nvs_purge_namespace(image.as_mut_ptr(), image.len(), bytes.as_mut_ptr(), bytes.len(), namespace)
    })
}

/// A number without an answer.
fn done(number: u32) -> Result<(), Refusal> {
    answered(number, &[0; ANSWER_SIZE])
}

fn number_in(answer: &[u8; ANSWER_SIZE]) -> usize {
    let mut bytes = [0; 8];
    bytes.copy_from_slice(&answer[1..9]);
    u64::from_le_bytes(bytes) as usize
}

fn item_in(answer: &[u8; ANSWER_SIZE]) -> [u8; ITEM_SIZE] {
    let mut item = [0; ITEM_SIZE];
    item.copy_from_slice(&answer[9..41]);
    item
}
