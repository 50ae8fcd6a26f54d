//! Items, records and sectors to draw cases from: pages that were written item by item, and sectors full of damage.

use compare::case::{Call, Case, DONE, Outcome};
use compare::flash::SECTOR;
use compare::oracle::{Oracle, crc};
use compare::record::*;

use crate::domain::{ANY, BLOB_INDEX, PAYLOADS, PRIMITIVES, is_known};
use crate::random::Random;

pub const ITEM: usize = 32;
pub type Item = [u8; ITEM];
/// The longest payload of a page.
pub const LONGEST: usize = 4000;

#[derive(Clone)]
pub struct Page {
    pub image: [u8; SECTOR],
    pub record: Record,
}

impl Page {
    pub fn lend(&self, case: &mut Case) {
        case.image = self.image;
        case.record.clone_from(&self.record);
    }
}

/// Where an entry begins.
pub fn entry(index: usize) -> usize {
    64 + ITEM * index
}

pub fn put_item(image: &mut [u8], index: usize, item: &Item) {
    image[entry(index)..entry(index) + ITEM].copy_from_slice(item);
}

fn item_crc(item: &Item) -> [u8; 4] {
    let mut covered = [0; 28];
    covered[..4].copy_from_slice(&item[..4]);
    covered[4..].copy_from_slice(&item[8..]);
    crc(&covered).to_le_bytes()
}

/// Gives the item the CRC over its bytes. It loads with it, where its type byte is known.
pub fn seal(item: &mut Item) {
    let crc = item_crc(item);
    item[4..8].copy_from_slice(&crc);
}

/// Gives the item the CRC that it would have with the type byte 0xFF. An unknown type loads with it in the Rust.
pub fn seal_as_any(item: &mut Item) {
    let mut any = *item;
    any[1] = ANY;
    item[4..8].copy_from_slice(&item_crc(&any));
}

pub fn loads(image: &[u8], index: usize) -> bool {
    let item: &Item = image[entry(index)..].first_chunk().expect("an entry lies in its sector");
    is_known(item[1]) && item[4..8] == item_crc(item)
}

/// A type byte: often one of the thirteen.
pub fn draw_type(random: &mut Random) -> u8 {
    match random.below(8) {
        0..3 => random.pick(&PRIMITIVES),
        3..6 => random.pick(&PAYLOADS),
        6 => random.pick(&[BLOB_INDEX, ANY]),
        _ => random.byte(),
    }
}

/// An item whose CRC is right, with a namespace from 0 to 3.
pub fn draw_item(random: &mut Random, type_byte: u8, span: u8) -> Item {
    let mut item = [0; ITEM];
    random.fill(&mut item);
    item[0] = random.below(4) as u8;
    item[1] = type_byte;
    item[2] = span;
    seal(&mut item);
    item
}

/// Payload bytes, often with 0xFF at their end, where the last unit may stay unwritten.
pub fn draw_data(random: &mut Random, length: usize, data: &mut Vec<u8>) {
    data.resize(length, 0);
    random.fill(data);
    let ones = [0, 0, 1, 2, 3, 4, 5, 40];
    let ones = random.pick(&ones).min(length);
    data[length - ones..].fill(0xFF);
}

/// The request of an append: namespace, type, chunk, key and data byte by byte.
pub fn draw_request(random: &mut Random, case: &mut Case) {
    case.namespace = random.below(5) as u8;
    case.chunk = if random.once_in(2) { 0xFF } else { random.byte() };
    case.value = random.byte();
    case.number = random.draw() as u32;
    case.span = 1;
    random.fill(&mut case.key);
    if random.once_in(2) {
        let length = random.below(16);
        case.key[length..].fill(0);
    }
    random.fill(&mut case.single);
    case.type_byte = draw_type(random);
    match case.call {
        Call::AppendVariable => {
            case.namespace = case.namespace.max(1);
            case.type_byte = random.pick(&PAYLOADS);
        }
        Call::AppendSingle => {
            let kinds = [&PRIMITIVES[..], &[BLOB_INDEX]].concat();
            case.type_byte = random.pick(&kinds);
        }
        _ => (),
    }
}

/// A record that is fit to use, with so many entries used and erased, and otherwise anything.
pub fn draw_record(random: &mut Random, next_free: usize) -> Record {
    let mut record = Record { state: random.pick(&[ACTIVE, ACTIVE, ACTIVE, FULL, FREEING]), ..Record::default() };
    if random.once_in(16) {
        record.state = random.pick(&[CORRUPT, INVALID]);
    }
    record.used = random.below(next_free + 1) as u8;
    record.erased = (next_free - record.used as usize) as u8;
    record.sequence = random.draw() as u32;
    record.version = random.pick(&[0xFE, 0xFF, 0]);
    record.header_crc = random.draw() as u32;
    draw_map(random, &mut record);
    let listed = random.below(next_free + 1);
    for _ in 0..listed {
        let (hash, index) = (random.draw() as u32 & 0xFF_FFFF, random.below(ENTRIES) as u8);
        record.list.push(Listed { hash, index });
    }
    record
}

/// Marks of every state, no more of them Written than the record has used.
fn draw_map(random: &mut Random, record: &mut Record) {
    let blank = random.once_in(4);
    random.fill(&mut record.map);
    if blank {
        record.map.fill(0xFF);
    }
    if random.once_in(4) {
        (0..ENTRIES).for_each(|index| record.set_mark(index, WRITTEN));
    }
    let mut surplus = record.written().saturating_sub(record.used as usize);
    let start = random.below(ENTRIES);
    for index in (start..ENTRIES).chain(0..start) {
        if surplus > 0 && record.mark(index) == WRITTEN {
            record.set_mark(index, random.pick(&[EMPTY, ERASED, ILLEGAL]));
            surplus -= 1;
        }
    }
}

/// A sector with items whole and torn, wild spans and sizes, zeros and noise, and a record to go with it.
pub fn draw_damaged(random: &mut Random) -> Page {
    let mut image = [0xFF; SECTOR];
    random.fill(&mut image[..64]);
    let end = random.pick(&[ENTRIES, ENTRIES, 40, 8, 0]);
    let mut index = 0;
    while index < end {
        index += draw_entries(random, &mut image, index);
    }
    let mut record = draw_record(random, ENTRIES);
    if random.once_in(2) {
        image[32..64].copy_from_slice(&record.map);
        record.used = ENTRIES as u8;
        record.erased = 0;
    }
    Page { image, record }
}

/// Puts something at an entry, and says how many entries it took.
fn draw_entries(random: &mut Random, image: &mut [u8; SECTOR], index: usize) -> usize {
    let room = ENTRIES - index;
    let type_byte = draw_type(random);
    let wild = [0, room as u8, room as u8 + 1, 255, random.byte()];
    let span = if random.once_in(4) { random.pick(&wild) } else { 1 };
    let mut item = draw_item(random, type_byte, span);
    match random.below(9) {
        0 => item = [0xFF; ITEM],
        1 => random.fill(&mut item),
        2 => item = [0; ITEM],
        3 => item[random.below(ITEM)] ^= 1 << random.below(8),
        4..7 => {
            let longest = random.pick(&[2, 6, ENTRIES]).min(room);
            let span = 1 + random.below(longest);
            return draw_payload(random, image, index, span);
        }
        _ => (),
    }
    put_item(image, index, &item);
    1
}

/// Puts a payload item at an entry, its size right or at the edge of its span.
fn draw_payload(random: &mut Random, image: &mut [u8; SECTOR], index: usize, span: usize) -> usize {
    let held = ITEM * (span - 1);
    let size = match random.below(4) {
        0 => held,
        1 => held + random.below(3),
        _ => random.below(held + 1),
    };
    let payload = &mut image[entry(index) + ITEM..entry(index) + ITEM * span];
    random.fill(payload);
    let type_byte = random.pick(&PAYLOADS);
    let mut item = draw_item(random, type_byte, span as u8);
    item[24..26].copy_from_slice(&(size as u16).to_le_bytes());
    item[26..28].fill(0xFF);
    item[28..32].copy_from_slice(&crc(&payload[..size.min(held)]).to_le_bytes());
    seal(&mut item);
    put_item(image, index, &item);
    span
}

/// Pages that the Rust wrote item by item.
#[derive(Default)]
pub struct Writer {
    oracle: Oracle,
    outcome: Outcome,
}

impl Writer {
    /// An Active page with so many entries used and erased. Full ones are handed out as Active too, as a power cut
    /// before the last unit leaves them.
    pub fn filled(&mut self, random: &mut Random, next_free: usize) -> Page {
        let mut case = Case::new(Call::Initialise);
        case.number = random.draw() as u32;
        self.step(&mut case);
        while case.record.next_free() < next_free {
            let room = next_free - case.record.next_free();
            let longest = random.pick(&[1, 3, 12, ENTRIES]).min(room);
            let span = 1 + random.below(longest);
            case.call = if span == 1 { Call::AppendSingle } else { Call::AppendVariable };
            draw_request(random, &mut case);
            draw_data(random, ITEM * (span - 1), &mut case.data);
            self.step(&mut case);
        }
        self.erase_some(random, &mut case);
        case.record.state = ACTIVE;
        case.image[0] = 0xFE;
        Page { image: case.image, record: case.record }
    }

    fn erase_some(&mut self, random: &mut Random, case: &mut Case) {
        let share = random.pick(&[2, 4, 1000]);
        case.call = Call::Erase;
        for place in case.record.list.clone() {
            if random.once_in(share) {
                case.index = place.index.into();
                case.span = case.image[entry(place.index.into()) + 2].into();
                self.step(case);
            }
        }
    }

    pub fn step(&mut self, case: &mut Case) {
        self.oracle.run(case, &mut self.outcome);
        assert_eq!(self.outcome.returned, DONE, "{:?} of a page being made", case.call);
        case.image.copy_from_slice(&self.outcome.image);
        case.record.clone_from(&self.oracle.record);
    }
}
