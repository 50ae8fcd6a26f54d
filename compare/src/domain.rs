//! The domain of 01: the inputs that meet no answer and no check marked added, and no rule of 02 that the Rust has not.

use compare::case::{Call, Case};
use compare::oracle::loaded_item_crc;
use compare::record::*;

use crate::pages::{Item, entry};

pub const PRIMITIVES: [u8; 8] = [0x01, 0x11, 0x02, 0x12, 0x04, 0x14, 0x08, 0x18];
pub const PAYLOADS: [u8; 3] = [0x21, 0x41, 0x42];
pub const BLOB_INDEX: u8 = 0x48;
pub const ANY: u8 = 0xFF;

pub fn is_single(type_byte: u8) -> bool {
    type_byte == BLOB_INDEX || PRIMITIVES.contains(&type_byte)
}

pub fn is_known(type_byte: u8) -> bool {
    type_byte == ANY || is_single(type_byte) || PAYLOADS.contains(&type_byte)
}

/// Whether an entry loads in the Rust alone: its type byte is unknown, and its CRC was made over 0xFF (02, R-5).
fn loads_as_any(image: &[u8], index: usize) -> bool {
    let item: &Item = image[entry(index)..].first_chunk().expect("an entry lies in its sector");
    !is_known(item[1]) && item[4..8] == loaded_item_crc(item).to_le_bytes()
}

/// 'Fit to use', in 01's order. The places after the list's length are zero by the encoding.
pub fn is_fit(record: &Record) -> bool {
    let listed_fit = |place: &Listed| (place.index as usize) < ENTRIES && place.hash < 1 << 24;
    let blank = *record == Record::default();
    record.next_free() <= ENTRIES
        && record.list.len() <= record.next_free()
        && record.written() <= record.used as usize
        && record.list.iter().all(listed_fit)
        && (record.state != UNINITIALIZED || blank)
}

pub fn in_domain(case: &Case) -> bool {
    let on_page = case.index < ENTRIES as u64;
    let active = case.record.state == ACTIVE;
    if case.call.takes_record() && !is_fit(&case.record) {
        return false;
    }
    match case.call {
        Call::Crc32 | Call::Hash | Call::TypeByte | Call::Width | Call::Statistics | Call::HashBound => true,
        Call::HeaderCrc => case.data.len() == 32,
        Call::ItemCrc => case.data.len() == 32 && is_known(case.data[1]),
        Call::RawRead | Call::EntryState => on_page,
        Call::Load | Call::LoadData => on_page && !loads_as_any(&case.image, case.index as usize),
        Call::Open => false,
        Call::Initialise => case.record.state == UNINITIALIZED && case.image.iter().all(|&byte| byte == 0xFF),
        Call::MarkFull | Call::AppendNamespace => active,
        Call::AppendSingle => active && is_single(case.type_byte) && case.span == 1,
        Call::AppendVariable => active && PAYLOADS.contains(&case.type_byte) && case.namespace != 0,
        Call::CopyIn => active && on_page && !loads_as_any(&case.source, case.index as usize),
        Call::Erase => on_page && can_erase(case),
        Call::Purge => true,
        Call::PurgeNamespace => !(0..ENTRIES).any(|index| loads_as_any(&case.image, index)),
    }
}

fn can_erase(case: &Case) -> bool {
    let index = case.index as usize;
    let on_page = case.span >= 1 && case.span <= (ENTRIES - index) as u64;
    matches!(case.record.state, ACTIVE | FULL | FREEING)
        && on_page
        && (index..index + case.span as usize).all(|entry| case.record.mark(entry) == WRITTEN)
}
