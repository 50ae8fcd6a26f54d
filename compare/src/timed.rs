//! How long the calls of the original take, over its own flash in memory, which logs nothing.

use std::hint::black_box;
use std::time::Instant;

use crate::Key;
use crate::blob::BlobIndex;
use crate::case::{Call, Case};
use crate::mem_flash::MemFlash;
use crate::oracle::{header_of, item_of, page_of, partition, type_of, write};
use crate::platform::software_crc32;
use crate::raw::{ITEM_SIZE, Item, sanitize_item_type};

/// How many pages a writing call is timed on in a row: each is prepared, and written once.
pub const PAGES: usize = 64;

/// Nanoseconds of a call, made on each of the pages.
pub fn on_each<T, R>(pages: &mut [T], mut call: impl FnMut(&mut T) -> R) -> f64 {
    let start = Instant::now();
    for page in pages.iter_mut() {
        black_box(call(black_box(page)));
    }
    start.elapsed().as_nanos() as f64 / pages.len() as f64
}

/// Nanoseconds of a call that can be made again and again, over about half a millisecond.
pub fn again<R>(mut call: impl FnMut() -> R) -> f64 {
    let mut times = 16;
    loop {
        let start = Instant::now();
        for _ in 0..times {
            black_box(call());
        }
        let taken = start.elapsed().as_nanos() as f64;
        if taken > 500_000.0 {
            return taken / times as f64;
        }
        times *= 2;
    }
}

/// Nanoseconds of the Rust's call on the inputs of a case.
pub fn rusts(case: &Case) -> f64 {
    match case.call {
        Call::Open => open(case),
        call if call.writes_image() => {
            let prepared = || (flash_of(case), page_of(&case.record, 0));
            let mut pages: Vec<_> = (0..PAGES).map(|_| prepared()).collect();
            on_each(&mut pages, |(flash, page)| write(page, flash, case))
        }
        call if call < Call::Load => number(case),
        _ => read(case),
    }
}

/// The page's sector, and after it the source's.
fn flash_of(case: &Case) -> MemFlash {
    MemFlash::from_bytes([case.image, case.source].concat())
}

fn number(case: &Case) -> f64 {
    let mut entry = [0; ITEM_SIZE];
    match case.call {
        Call::Crc32 => again(|| software_crc32(case.number, black_box(&case.data))),
        Call::ItemCrc => {
            let item = item_of(&case.data);
            again(|| black_box(&item).calculate_crc32(software_crc32))
        }
        Call::HeaderCrc => {
            let header = header_of(&case.data);
            again(|| black_box(&header).calculate_crc32(software_crc32))
        }
        Call::Hash => {
            let key = Key(case.key);
            again(|| Item::calculate_hash_ref(software_crc32, black_box(case.namespace), black_box(&key), case.chunk))
        }
        Call::TypeByte => again(|| {
            entry[1] = black_box(case.type_byte);
            sanitize_item_type(black_box(&mut entry));
        }),
        _ => again(|| type_of(black_box(case.type_byte)).get_primitive_bytes_width()),
    }
}

fn read(case: &Case) -> f64 {
    let (page, mut flash, index) = (page_of(&case.record, 0), flash_of(case), case.index as u8);
    let (entries, _) = case.image[64..].as_chunks::<ITEM_SIZE>();
    let mut output = case.output.clone();
    match case.call {
        Call::Load => again(|| page.load_item(&mut flash, black_box(index))),
        Call::RawRead => again(|| page.read_raw_entry(&mut flash, black_box(index))),
        Call::LoadData => again(|| {
            let item = page.load_item(&mut flash, black_box(index))?;
            page.load_referenced_data_into(&mut flash, index, &item, &mut output)
        }),
        Call::EntryState => again(|| black_box(&page).get_entry_state(black_box(index))),
        Call::Statistics => again(|| black_box(&page).get_entry_statistics()),
        Call::HashBound => again(|| black_box(&page).hashed_item_bound(black_box(entries))),
        call => unreachable!("{call:?} does not read"),
    }
}

/// The Rust's scan of a sector, which follows other rules.
fn open(case: &Case) -> f64 {
    let mut partitions: Vec<_> = (0..PAGES).map(|_| (partition(flash_of(case)), BlobIndex::new(), None)).collect();
    on_each(&mut partitions, |(nvs, blobs, opened)| *opened = nvs.load_sector(0, blobs).ok())
}
