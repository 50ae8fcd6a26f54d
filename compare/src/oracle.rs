//! The calls of the original, each on the inputs of a case, with what comes back put as the boundary has it.

use std::panic::{AssertUnwindSafe, catch_unwind, set_hook, take_hook};
use std::sync::atomic::{AtomicBool, Ordering};

use crate::Key;
use crate::Nvs;
use crate::blob::BlobIndex;
use crate::case::*;
use crate::error::Error;
use crate::flash::{Flash, SECTOR, Unit};
use crate::page::{ItemHashListEntry, LoadPageResult, ThinPage, ThinPageHeader, ThinPageState};
use crate::platform::{Platform, software_crc32};
use crate::raw::{ITEM_SIZE, Item, ItemData, ItemType, PageHeader, PageHeaderRaw, RawItem, sanitize_item_type};
use crate::record::{self, Listed, Record};
use crate::u24::u24;

const SOURCE: usize = SECTOR;

/// Whether the Rust runs: a panic in it is an outcome, and nothing is printed of it.
static RUNNING: AtomicBool = AtomicBool::new(false);

pub fn hush_panics() {
    let usual = take_hook();
    set_hook(Box::new(move |panic| {
        if !RUNNING.load(Ordering::Relaxed) {
            usual(panic);
        }
    }));
}

/// The Rust over its flash. After a call, `flash.log` has the units in their order and `record` the page's record.
#[derive(Default)]
pub struct Oracle {
    pub flash: Flash,
    pub record: Record,
}

impl Oracle {
    pub fn run(&mut self, case: &Case, outcome: &mut Outcome) {
        outcome.before(case);
        self.flash.log.clear();
        if case.call.takes_image() {
            self.flash.bytes[..SECTOR].copy_from_slice(&case.image);
        }
        if case.call == Call::CopyIn {
            self.flash.bytes[SOURCE..].copy_from_slice(&case.source);
        }
        RUNNING.store(true, Ordering::Relaxed);
        if catch_unwind(AssertUnwindSafe(|| self.call(case, outcome))).is_err() {
            outcome.returned = PANICKED;
        }
        RUNNING.store(false, Ordering::Relaxed);
        if case.call.writes_image() {
            outcome.image.copy_from_slice(&self.flash.bytes[..SECTOR]);
        }
    }

    pub fn units(&self) -> &[Unit] {
        &self.flash.log
    }

    fn call(&mut self, case: &Case, outcome: &mut Outcome) {
        match case.call {
            Call::Crc32 => outcome.returned = software_crc32(case.number, &case.data),
            Call::ItemCrc => outcome.set_number(item_of(&case.data).calculate_crc32(software_crc32).into()),
            Call::HeaderCrc => outcome.set_number(header_of(&case.data).calculate_crc32(software_crc32).into()),
            Call::Hash => outcome.set_number(hash(case).into()),
            Call::TypeByte => outcome.returned = type_of(case.type_byte) as u8 as u32,
            Call::Width => width(case, outcome),
            Call::Load => self.load(case, outcome),
            Call::RawRead => self.raw_read(case, outcome),
            Call::LoadData => self.load_data(case, outcome),
            Call::EntryState => outcome.set_number(page_of(&case.record, 0).get_entry_state(case.index as u8) as u64),
            Call::Statistics => statistics(case, outcome),
            Call::HashBound => hash_bound(case, outcome),
            Call::Open => self.scan(outcome),
            _ => self.write(case, outcome),
        }
    }

    fn load(&mut self, case: &Case, outcome: &mut Outcome) {
        match page_of(&case.record, 0).load_item(&mut self.flash, case.index as u8) {
            Ok(item) => outcome.set_item(&bytes_of(item)),
            Err(error) => refuse(error, outcome),
        }
    }

    fn raw_read(&mut self, case: &Case, outcome: &mut Outcome) {
        match page_of(&case.record, 0).read_raw_entry(&mut self.flash, case.index as u8) {
            Ok(bytes) => outcome.set_item(&bytes),
            Err(error) => refuse(error, outcome),
        }
    }

    /// `load_item`, then `load_referenced_data_into`, as the Rust's own callers go about it. The form that hands back
    /// a `Vec` has to give the same bytes.
    fn load_data(&mut self, case: &Case, outcome: &mut Outcome) {
        let (page, index) = (page_of(&case.record, 0), case.index as u8);
        let item = match page.load_item(&mut self.flash, index) {
            Ok(item) => item,
            Err(error) => return refuse(error, outcome),
        };
        match page.load_referenced_data_into(&mut self.flash, index, &item, &mut outcome.output) {
            Ok(size) => {
                let data = page.load_referenced_data(&mut self.flash, index, &item);
                assert_eq!(data.as_deref(), Ok(&outcome.output[..size]));
                outcome.set_number(size as u64);
            }
            Err(error) => refuse(error, outcome),
        }
    }

    fn write(&mut self, case: &Case, outcome: &mut Outcome) {
        let mut page = page_of(&case.record, 0);
        if let Err(error) = write(&mut page, &mut self.flash, case) {
            refuse(error, outcome);
        }
        if case.call.takes_record() {
            self.keep(&page);
            outcome.set_record(&self.record);
        }
    }

    /// The Rust's own scan of a sector, which follows other rules than 01's opening. A page that it hands out as empty
    /// comes back with the state that it gave it.
    fn scan(&mut self, outcome: &mut Outcome) {
        let mut nvs = partition(std::mem::take(&mut self.flash));
        let result = nvs.load_sector(0, &mut BlobIndex::new());
        self.flash = nvs.hal;
        match result {
            Ok(LoadPageResult::Empty(page) | LoadPageResult::Used(page)) => self.keep(&page),
            Err(error) => refuse(error, outcome),
        }
        outcome.set_record(&self.record);
    }

    fn keep(&mut self, page: &ThinPage) {
        self.record.state = number_of(page.get_state());
        self.record.sequence = page.header.sequence;
        self.record.version = page.header.version;
        self.record.header_crc = page.header.crc;
        self.record.map = page.entry_state_bitmap;
        self.record.used = page.used_entry_count;
        self.record.erased = page.erased_entry_count;
        self.record.list.clear();
        let list = page.item_hash_list.iter();
        self.record.list.extend(list.map(|entry| Listed { hash: entry.hash.to_u32(), index: entry.index }));
    }
}

/// A partition of one sector, as `Nvs::new` makes it before it scans.
pub(crate) fn partition<T: Platform>(hal: T) -> Nvs<T> {
    Nvs {
        hal,
        base_address: 0,
        sectors: 1,
        faulted: false,
        purge: false,
        namespaces: Default::default(),
        free_pages: Default::default(),
        pages: Default::default(),
        legacy_blobs: Default::default(),
    }
}

pub(crate) fn page_of(record: &Record, address: usize) -> ThinPage {
    let listed = |place: &Listed| ItemHashListEntry { hash: u24::from_u32(place.hash), index: place.index };
    let mut page = ThinPage::uninitialized(address);
    page.header = ThinPageHeader {
        state: state_of(record.state),
        sequence: record.sequence,
        version: record.version,
        crc: record.header_crc,
    };
    page.entry_state_bitmap = record.map;
    page.used_entry_count = record.used;
    page.erased_entry_count = record.erased;
    page.item_hash_list.reserve_exact(record::ENTRIES);
    page.item_hash_list.extend(record.list.iter().map(listed));
    page
}

/// The calls that write.
pub(crate) fn write<T: Platform>(page: &mut ThinPage, flash: &mut T, case: &Case) -> Result<(), Error> {
    let chunk = Some(case.chunk).filter(|&chunk| chunk != 0xFF);
    let (namespace, key, type_) = (case.namespace, Key(case.key), type_of(case.type_byte));
    let (index, span) = (case.index as u8, case.span as u8);
    match case.call {
        Call::Initialise => page.initialize(flash, case.number),
        Call::MarkFull => page.mark_as_full(flash),
        Call::AppendSingle => page.write_item(flash, namespace, key, type_, chunk, span, ItemData { raw: case.single }),
        Call::AppendNamespace => page.write_namespace(flash, key, case.value),
        Call::AppendVariable => page.write_variable_sized_item(flash, namespace, key, type_, chunk, &case.data),
        Call::CopyIn => copy_in(page, flash, index),
        Call::Erase => page.erase_item(flash, index, span),
        // A number past what the Rust's parameter holds is the largest that it does hold.
        Call::Purge => page.purge_entries(flash, case.index.min(255) as u8, case.span.min(255) as u8),
        Call::PurgeNamespace => page.purge_erased_for_namespace(flash, namespace),
        call => unreachable!("{call:?} does not write"),
    }
}

/// `load_item` of the source, then `copy_item_from`, as the Rust's own caller goes about it.
fn copy_in<T: Platform>(page: &mut ThinPage, flash: &mut T, index: u8) -> Result<(), Error> {
    let source = ThinPage::uninitialized(SOURCE);
    let item = source.load_item(flash, index)?;
    page.copy_item_from(flash, &source, index, &item)
}

/// The number of 01 that an error of the Rust is.
fn refuse(error: Error, outcome: &mut Outcome) {
    outcome.returned = match error {
        Error::ValueTooLong => VALUE_TOO_LONG,
        Error::PageFull => PAGE_FULL,
        Error::KeyNotFound => KEY_NOT_FOUND,
        Error::CorruptedData => CORRUPTED_DATA,
        Error::ItemTypeMismatch(type_) => {
            outcome.set_type(type_ as u8);
            ITEM_TYPE_MISMATCH
        }
        _ => OTHER_ERROR,
    };
}

pub(crate) fn type_of(byte: u8) -> ItemType {
    let mut entry = [0; ITEM_SIZE];
    entry[1] = byte;
    sanitize_item_type(&mut entry);
    ItemType::from_repr(entry[1]).expect("a type byte is one of the thirteen now")
}

fn width(case: &Case, outcome: &mut Outcome) {
    match type_of(case.type_byte).get_primitive_bytes_width() {
        Ok(width) => outcome.set_number(width as u64),
        Err(error) => refuse(error, outcome),
    }
}

fn statistics(case: &Case, outcome: &mut Outcome) {
    let (empty, written, erased, illegal) = page_of(&case.record, 0).get_entry_statistics();
    outcome.set_counts([empty, written, erased, illegal]);
}

fn hash_bound(case: &Case, outcome: &mut Outcome) {
    let (entries, _) = case.image[64..].as_chunks::<ITEM_SIZE>();
    outcome.set_number(page_of(&case.record, 0).hashed_item_bound(entries) as u64);
}

fn hash(case: &Case) -> u32 {
    Item::calculate_hash_ref(software_crc32, case.namespace, &Key(case.key), case.chunk).to_u32()
}

pub(crate) fn item_of(data: &[u8]) -> Item {
    Item::from_raw(data.try_into().expect("an item is 32 bytes"))
}

pub(crate) fn header_of(data: &[u8]) -> PageHeader {
    let raw = data.try_into().expect("a header is 32 bytes");
    // Safety: a header is plain bytes and numbers.
    unsafe { PageHeaderRaw { raw }.page_header }
}

fn bytes_of(item: Item) -> [u8; ITEM_SIZE] {
    // Safety: an item is plain bytes and numbers.
    unsafe { RawItem { item }.raw }
}

fn state_of(number: u8) -> ThinPageState {
    match number {
        record::UNINITIALIZED => ThinPageState::Uninitialized,
        record::ACTIVE => ThinPageState::Active,
        record::FULL => ThinPageState::Full,
        record::FREEING => ThinPageState::Freeing,
        record::CORRUPT => ThinPageState::Corrupt,
        _ => ThinPageState::Invalid,
    }
}

fn number_of(state: &ThinPageState) -> u8 {
    match state {
        ThinPageState::Uninitialized => record::UNINITIALIZED,
        ThinPageState::Active => record::ACTIVE,
        ThinPageState::Full => record::FULL,
        ThinPageState::Freeing => record::FREEING,
        ThinPageState::Corrupt => record::CORRUPT,
        ThinPageState::Invalid => record::INVALID,
    }
}

/// The CRC of an item whose type byte is taken as loaded: 0xFF where it is unknown.
pub fn loaded_item_crc(item: &[u8; ITEM_SIZE]) -> u32 {
    item_of(item).calculate_crc32(software_crc32)
}

/// The CRC of bytes, from 0xFFFFFFFF as all uses start.
pub fn crc(bytes: &[u8]) -> u32 {
    software_crc32(u32::MAX, bytes)
}
