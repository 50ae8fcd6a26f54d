//! The calls through the archive: the edges of 01, every refusal once, and a value written and read back.
#![cfg(archive)]

use nvs_page::*;

const CURVE: Key = key("curve");

fn fresh() -> ([u8; SECTOR_SIZE], Record) {
    let (mut image, mut record) = ([0xFF; SECTOR_SIZE], Record::default());
    initialise(&mut image, &mut record, 7, NO_STOP).unwrap();
    (image, record)
}

fn single(namespace: u8) -> Single {
    Single { namespace, kind: ItemType::U32, chunk: NO_CHUNK, key: CURVE, data: [1, 2, 3, 4, 0xFF, 0xFF, 0xFF, 0xFF] }
}

fn blob(data: &[u8]) -> Variable<'_> {
    Variable { namespace: 1, kind: ItemType::Blob, chunk: NO_CHUNK, key: CURVE, data }
}

/// A page whose entries are all used but so many.
fn with_free(free: usize) -> ([u8; SECTOR_SIZE], Record) {
    let (mut image, mut record) = fresh();
    while record.free() > free {
        append_single(&mut image, &mut record, single(1), NO_STOP).unwrap();
    }
    (image, record)
}

/// How many units an append has: the first stop at which it is done.
fn units(data: &[u8]) -> u64 {
    let (image, record) = fresh();
    let stops_at = |stop: u64| append_variable(&mut image.clone(), &mut record.clone(), blob(data), stop);
    (0..2000).find(|&stop| stops_at(stop).is_ok()).unwrap()
}

#[test]
fn crc_of_the_check_value() {
    assert_eq!(crc32(0, b"123456789"), 0xCBF4_3926);
}

#[test]
fn single_on_a_fresh_page() {
    let (mut image, mut record) = fresh();
    append_single(&mut image, &mut record, single(1), NO_STOP).unwrap();
    assert_eq!((image[64], image[65], image[66], image[32]), (1, 0x04, 1, 0xFE));
    assert_eq!((record.used(), record.free()), (1, 125));
    let item = load(&image, 0).unwrap();
    assert_eq!((item.namespace(), item.type_byte(), item.span(), item.chunk()), (1, 0x04, 1, NO_CHUNK));
    assert_eq!((item.key(), item.data()[..4].to_vec()), (CURVE, vec![1, 2, 3, 4]));
    assert_eq!(item.crc(), item_crc(item.as_bytes()));
    assert_eq!(raw_read(&image, 0).unwrap(), *item.as_bytes());
    assert_eq!(record.listed().collect::<Vec<_>>(), [Listed { hash: hash(1, &CURVE, NO_CHUNK), index: 0 }]);
}

#[test]
fn thirty_three_bytes_have_span_3() {
    let (mut image, mut record) = fresh();
    append_variable(&mut image, &mut record, blob(&[5; 33]), NO_STOP).unwrap();
    assert_eq!((image[66], image[32]), (3, 0xEA));
    assert_eq!(load_data(&image, 0, &mut [0; 35]), Err(Refusal::CorruptedData));
    assert_eq!(load_data(&image, 0, &mut [0; 36]), Ok(33));
    erase(&mut image, &mut record, 0, 3).unwrap();
    assert_eq!(image[32], 0xC0);
}

#[test]
fn units_of_appends() {
    let mut blank_tail = [5; 33];
    blank_tail[32] = 0xFF;
    assert_eq!([units(&[]), units(&[5; 33]), units(&blank_tail), units(&[5; 4000])], [9, 18, 17, 1017]);
}

#[test]
fn a_curve_is_read_back_after_opening() {
    let (mut image, mut record) = fresh();
    let curve: Vec<u8> = (0..500u32).flat_map(|level| (level * level).to_le_bytes()).collect();
    append_namespace(&mut image, &mut record, &key("cal"), 1, NO_STOP).unwrap();
    append_variable(&mut image, &mut record, blob(&curve), NO_STOP).unwrap();
    let opened = open(&mut image).unwrap();
    assert_eq!(opened, record);
    let index = opened.find(hash(1, &CURVE, NO_CHUNK)).next().unwrap();
    let mut output = vec![0; curve.len()];
    assert_eq!(load_data(&image, index, &mut output), Ok(curve.len()));
    assert_eq!(output, curve);
    let item = load(&image, index).unwrap();
    assert_eq!((item.size() as usize, item.payload_crc()), (curve.len(), crc32(u32::MAX, &curve)));
}

#[test]
fn a_copy_has_the_same_bytes() {
    let (mut source, mut record) = fresh();
    append_variable(&mut source, &mut record, blob(b"decimal separator"), NO_STOP).unwrap();
    let (mut target, mut record) = with_free(2);
    copy_in(&mut target, &mut record, &source, 0, NO_STOP).unwrap();
    assert_eq!(target[64 + 124 * 32..], source[64..128]);
    assert_eq!(record.state(), Some(PageState::Full));
}

#[test]
fn maps_are_counted() {
    let (mut image, mut record) = with_free(100);
    erase(&mut image, &mut record, 3, 1).unwrap();
    let counts = statistics(record.map());
    assert_eq!(counts, Statistics { empty: 100, written: 25, erased: 1, illegal: 0 });
    assert_eq!(entry_state(record.map(), 3), Ok(EntryState::Erased));
    assert_eq!(entry_state(record.map(), 26), Ok(EntryState::Empty));
    assert_eq!(hash_bound(record.map(), image[64..].try_into().unwrap()), 25);
}

#[test]
fn purges_zero_bytes() {
    let (mut image, mut record) = with_free(120);
    erase(&mut image, &mut record, 2, 1).unwrap();
    purge_namespace(&mut image, &mut record, 9).unwrap();
    assert_ne!(image[128..160], [0; 32]);
    purge_namespace(&mut image, &mut record, 1).unwrap();
    assert_eq!(image[128..160], [0; 32]);
    purge(&mut image, 125, 9).unwrap();
    assert_eq!(image[64 + 125 * 32..], [0; 32]);
    purge(&mut image, 126, 1).unwrap();
}

#[test]
fn types_and_widths() {
    assert_eq!((type_byte(0x05), type_byte(0x14)), (0xFF, 0x14));
    assert_eq!((width(0x14), width(0x21)), (Ok(4), Err(Refusal::ItemTypeMismatch(0x21))));
}

/// The smallest page with an unknown type (docs/DIFFERENCES.md): an item of type Any is kept, and lost once its type byte lost bits.
#[test]
fn an_unknown_type_is_no_item() {
    let (mut any, _) = fresh();
    any[32] = 0xFE;
    any[64..76].copy_from_slice(b"\x01\xFF\x01\xFF\x35\xB6\xF5\x98unit");
    any[76..88].fill(0);
    any[88] = 2;
    let mut damaged = any;
    damaged[65] = 0x05;
    assert_eq!(load(&any, 0).unwrap().type_byte(), 0xFF);
    assert_eq!((open(&mut any).unwrap().used(), any[32]), (1, 0xFE));
    assert_eq!(load(&damaged, 0), Err(Refusal::KeyNotFound));
    assert_eq!((open(&mut damaged).unwrap().used(), damaged[32]), (0, 0xFC));
    assert_eq!(raw_read(&damaged, 0).unwrap()[1], 0x05);
}

#[test]
fn every_refusal_once() {
    let (mut image, mut record) = fresh();
    let unfit = Record::from([0xA5; RECORD_SIZE]);
    let append = |image: &mut [u8], record: &mut Record, item| append_single(image, record, item, NO_STOP);
    let no_single = Single { kind: ItemType::Blob, ..single(1) };
    assert_eq!(append(&mut image[1..], &mut record, single(1)), Err(Refusal::BadImage));
    assert_eq!(append(&mut image, &mut unfit.clone(), single(1)), Err(Refusal::BadRecord));
    assert_eq!(append(&mut image, &mut Record::default(), single(1)), Err(Refusal::WrongState));
    assert_eq!(append(&mut image, &mut record, no_single), Err(Refusal::BadRequest));
    let variable = |image: &mut [u8], record: &mut Record, data| append_variable(image, record, blob(data), NO_STOP);
    assert_eq!(variable(&mut image, &mut record, &[0; 4001]), Err(Refusal::ValueTooLong));
    let (mut last, mut last_record) = with_free(1);
    assert_eq!(variable(&mut last, &mut last_record, &[0; 1]), Err(Refusal::PageFull));
    assert_eq!(load(&image, 0), Err(Refusal::KeyNotFound));
    assert_eq!(load_data(&last, 0, &mut [0; 64]), Err(Refusal::ItemTypeMismatch(0x04)));
    assert_eq!(load(&image, 126), Err(Refusal::CorruptedData));
    assert_eq!(erase(&mut image, &mut record, 0, 1), Err(Refusal::NotWritten));
    assert_eq!(append_single(&mut image, &mut record, single(1), 8), Err(Refusal::Stopped));
}

/// Opening stopped after each of its units, and begun again, gives what one whole opening gives.
#[test]
fn a_stopped_opening_is_begun_again() {
    let (mut cut, mut record) = with_free(60);
    // Bytes of 24 entries lie there unmarked.
    assert_eq!(append_variable(&mut cut, &mut record, blob(&[7; 1000]), 190), Err(Refusal::Stopped));
    let mut whole = cut;
    let opened = open(&mut whole).unwrap();
    let stops_at = |stop: u64| {
        let mut image = cut;
        let stopped = open_stopped(&mut image, stop);
        assert_eq!((open(&mut image).as_ref(), image), (Ok(&opened), whole));
        stopped
    };
    let units = (0..=16).find(|&stop| stops_at(stop) != Err(Refusal::Stopped)).unwrap();
    assert_eq!((units, stops_at(units)), (4, Ok(opened.clone())));
}

/// No number is taken for its low byte.
#[test]
fn wide_numbers_leave_the_page() {
    let (image, record) = with_free(100);
    for index in [256, 256 + 3, 65_536 + 3, (1 << 32) + 3] {
        let (mut target, mut copy) = (image, record.clone());
        assert_eq!(load(&image, index), Err(Refusal::CorruptedData));
        assert_eq!(raw_read(&image, index), Err(Refusal::CorruptedData));
        assert_eq!(load_data(&image, index, &mut [0; 64]), Err(Refusal::CorruptedData));
        assert_eq!(entry_state(record.map(), index), Err(Refusal::CorruptedData));
        assert_eq!(copy_in(&mut target, &mut copy, &image, index, NO_STOP), Err(Refusal::CorruptedData));
        assert_eq!(erase(&mut target, &mut copy, index, 1), Err(Refusal::CorruptedData));
        assert_eq!(erase(&mut target, &mut copy, 3, 1 + index - 3), Err(Refusal::CorruptedData));
        assert_eq!(purge(&mut target, index, 1), Ok(()));
        assert_eq!((target, copy), (image, record.clone()));
    }
}

#[test]
fn full_pages_take_no_more() {
    let (mut image, mut record) = fresh();
    mark_full(&mut image, &mut record).unwrap();
    assert_eq!(image[0], 0xFC);
    assert_eq!(append_single(&mut image, &mut record, single(1), NO_STOP), Err(Refusal::WrongState));
    assert_eq!(header_crc(image[..32].try_into().unwrap()), record.header_crc());
    assert_eq!((record.sequence(), record.version()), (7, 0xFE));
}
