//! The Rust side: the files of the original, unchanged, over a flash in memory that logs each unit.
//!
//! `build.rs` names the files. They are modules of this crate's root, since they name each other as `crate::page` and
//! the like, and what `oracle` calls is private to their crate. Of the original's own root only `statistics.rs` is not
//! at hand: its three structs stand in below, as `nvs.rs` fills them.

extern crate alloc;

include!(concat!(env!("OUT_DIR"), "/original.rs"));

pub mod case;
pub mod flash;
pub mod oracle;
pub mod record;
pub mod timed;

use nvs::Nvs;
use raw::FLASH_SECTOR_SIZE;
use types::{Key, MAX_KEY_LENGTH};

pub struct PageStatistics {
    pub empty: u16,
    pub active: u16,
    pub full: u16,
    pub erasing: u16,
    pub corrupted: u16,
}

pub struct EntryStatistics {
    pub empty: u32,
    pub written: u32,
    pub erased: u32,
    pub illegal: u32,
}

pub struct NvsStatistics {
    pub pages: PageStatistics,
    pub entries_per_page: Vec<EntryStatistics>,
    pub entries_overall: EntryStatistics,
}
