//! The record of a page: what the calls need to know of it beside its bytes.

use core::fmt;

use crate::{ENTRIES_PER_PAGE, MAP_SIZE};

pub const RECORD_SIZE: usize = 675;

#[derive(Clone, Copy, Debug, PartialEq, Eq)]
#[repr(u8)]
pub enum PageState {
    Uninitialized,
    Active,
    Full,
    Freeing,
    Corrupt,
    Invalid,
}

#[derive(Clone, Copy, Debug, PartialEq, Eq)]
#[repr(u8)]
pub enum EntryState {
    Empty = 0b11,
    Written = 0b10,
    Erased = 0b00,
    Illegal = 0b01,
}

impl EntryState {
    pub(crate) fn of_bits(bits: u8) -> Self {
        match bits & 0b11 {
            0b11 => EntryState::Empty,
            0b10 => EntryState::Written,
            0b00 => EntryState::Erased,
            _ => EntryState::Illegal,
        }
    }
}

/// A place of the list: an item's hash and the index of its first entry.
#[derive(Clone, Copy, Debug, PartialEq, Eq)]
pub struct Listed {
    pub hash: u32,
    pub index: u8,
}

/// The 675 bytes of a record. The calls check them: bytes that are no fit record are refused with BadRecord.
#[derive(Clone, PartialEq, Eq)]
pub struct Record(pub(crate) [u8; RECORD_SIZE]);

impl Default for Record {
    /// The Uninitialized record, of a page whose bytes are all 0xFF.
    fn default() -> Self {
        let mut bytes = [0; RECORD_SIZE];
        bytes[10..42].fill(0xFF);
        Record(bytes)
    }
}

impl From<[u8; RECORD_SIZE]> for Record {
    fn from(bytes: [u8; RECORD_SIZE]) -> Self {
        Record(bytes)
    }
}

impl Record {
    pub fn as_bytes(&self) -> &[u8; RECORD_SIZE] {
        &self.0
    }

    /// None where the byte is no state: such a record is not fit to use.
    pub fn state(&self) -> Option<PageState> {
        Some(match self.0[0] {
            0 => PageState::Uninitialized,
            1 => PageState::Active,
            2 => PageState::Full,
            3 => PageState::Freeing,
            4 => PageState::Corrupt,
            5 => PageState::Invalid,
            _ => return None,
        })
    }

    pub fn sequence(&self) -> u32 {
        self.word(1)
    }

    pub fn version(&self) -> u8 {
        self.0[5]
    }

    pub fn header_crc(&self) -> u32 {
        self.word(6)
    }

    /// Two bits an entry, for `entry_state` and `statistics`.
    pub fn map(&self) -> &[u8; MAP_SIZE] {
        self.0[10..].first_chunk().unwrap_or(&[0; MAP_SIZE])
    }

    pub fn used(&self) -> u8 {
        self.0[42]
    }

    pub fn erased(&self) -> u8 {
        self.0[43]
    }

    /// The index that the next item gets.
    pub fn next_free(&self) -> usize {
        self.used() as usize + self.erased() as usize
    }

    /// How many entries are free.
    pub fn free(&self) -> usize {
        ENTRIES_PER_PAGE.saturating_sub(self.next_free())
    }

    /// The items outside namespace 0, in the order of the list.
    pub fn listed(&self) -> impl Iterator<Item = Listed> + '_ {
        let length = (self.0[44] as usize).min(ENTRIES_PER_PAGE);
        (0..length).map(|place| Listed { hash: self.word(45 + 5 * place), index: self.0[49 + 5 * place] })
    }

    /// The indices listed under a hash. Items share hashes: load the item to see whether it is the one.
    pub fn find(&self, hash: u32) -> impl Iterator<Item = usize> + '_ {
        self.listed().filter(move |place| place.hash == hash).map(|place| place.index.into())
    }

    fn word(&self, at: usize) -> u32 {
        u32::from_le_bytes([self.0[at], self.0[at + 1], self.0[at + 2], self.0[at + 3]])
    }
}

impl fmt::Debug for Record {
    fn fmt(&self, f: &mut fmt::Formatter<'_>) -> fmt::Result {
        f.debug_struct("Record")
            .field("state", &self.state())
            .field("sequence", &self.sequence())
            .field("version", &self.version())
            .field("header_crc", &self.header_crc())
            .field("map", self.map())
            .field("used", &self.used())
            .field("erased", &self.erased())
            .field("listed", &self.0[44])
            .finish()
    }
}
