//! Nanoseconds of both sides on the same inputs, in one run: the median of several rounds, and the ratio.

use std::hint::black_box;

use compare::case::*;
use compare::flash::SECTOR;
use compare::record::{ENTRIES, Record};
use compare::timed::{self, PAGES, again, on_each};

use crate::ours;
use crate::pages::*;
use crate::random::Random;

const ROUNDS: usize = 41;

/// What is timed, on what, and the call.
type Row = (&'static str, String, Case);

pub fn print() {
    let rows = [numbers(), readings(), appends(), others(), openings()].concat();
    println!("| call | on | the Rust, ns | ours, ns | the Rust / ours |\n|---|---|---:|---:|---:|");
    for (name, input, case) in rows {
        let (mut rusts, mut mine) = (Vec::new(), Vec::new());
        for _ in 0..ROUNDS {
            rusts.push(timed::rusts(&case));
            mine.push(ours_of(&case));
        }
        let (rusts, mine) = (median(rusts), median(mine));
        println!("| {name} | {input} | {rusts:.1} | {mine:.1} | {:.2} |", rusts / mine);
    }
}

fn median(mut times: Vec<f64>) -> f64 {
    times.sort_by(f64::total_cmp);
    times[times.len() / 2]
}

/// Nanoseconds of our call on the inputs of a case. Records and answers pass as bytes, which is part of it.
fn ours_of(case: &Case) -> f64 {
    let mut prepared = Outcome::default();
    prepared.before(case);
    if case.call.writes_image() {
        let mut pages = vec![prepared; PAGES];
        return on_each(&mut pages, |page| ours::write(case, NO_STOP, page));
    }
    // Each call by its name, so that nothing is chosen while the time runs.
    match case.call {
        Call::Crc32 => again(|| ours::number(Call::Crc32, black_box(case))),
        Call::ItemCrc => again(|| ours::read(Call::ItemCrc, black_box(case), &mut prepared)),
        Call::HeaderCrc => again(|| ours::read(Call::HeaderCrc, black_box(case), &mut prepared)),
        Call::Hash => again(|| ours::read(Call::Hash, black_box(case), &mut prepared)),
        Call::TypeByte => again(|| ours::number(Call::TypeByte, black_box(case))),
        Call::Width => again(|| ours::read(Call::Width, black_box(case), &mut prepared)),
        Call::Load => again(|| ours::read(Call::Load, black_box(case), &mut prepared)),
        Call::RawRead => again(|| ours::read(Call::RawRead, black_box(case), &mut prepared)),
        Call::LoadData => again(|| ours::read(Call::LoadData, black_box(case), &mut prepared)),
        Call::EntryState => again(|| ours::read(Call::EntryState, black_box(case), &mut prepared)),
        Call::Statistics => again(|| ours::read(Call::Statistics, black_box(case), &mut prepared)),
        _ => again(|| ours::read(Call::HashBound, black_box(case), &mut prepared)),
    }
}

fn case_on(page: &Page, call: Call, change: impl Fn(&mut Case)) -> Case {
    let mut case = Case::new(call);
    page.lend(&mut case);
    (case.namespace, case.type_byte, case.key) = (1, 0x04, *b"calibration\0\0\0\0\0");
    change(&mut case);
    case
}

/// A page that holds the items of a history, so many entries of it used.
fn page_with(entries: usize) -> Page {
    Writer::default().filled(&mut Random(entries as u64), entries)
}

/// A fresh page with one item of so many payload bytes.
fn page_with_payload(length: usize) -> Page {
    let mut writer = Writer::default();
    let mut case = case_on(&writer.filled(&mut Random(1), 0), Call::AppendVariable, |case| case.type_byte = 0x42);
    draw_data(&mut Random(2), length, &mut case.data);
    writer.step(&mut case);
    Page { image: case.image, record: case.record }
}

fn numbers() -> Vec<Row> {
    let page = page_with(40);
    let sum =
        |length: usize| case_on(&page, Call::Crc32, |case| (case.number, case.data) = (u32::MAX, vec![0x5A; length]));
    let line = |call, at: usize| case_on(&page, call, |case| case.data = case.image[at..at + ITEM].to_vec());
    vec![
        ("crc32", "28 bytes".into(), sum(28)),
        ("crc32", "4,000 bytes".into(), sum(4000)),
        ("item CRC", "an item".into(), line(Call::ItemCrc, entry(0))),
        ("header CRC", "a header".into(), line(Call::HeaderCrc, 0)),
        ("hash", "a key".into(), case_on(&page, Call::Hash, |_| ())),
        ("type byte", "U32".into(), case_on(&page, Call::TypeByte, |_| ())),
        ("width", "U32".into(), case_on(&page, Call::Width, |_| ())),
    ]
}

fn readings() -> Vec<Row> {
    let page = page_with(ENTRIES);
    let data = |length: usize| {
        case_on(&page_with_payload(length), Call::LoadData, |case| case.output = vec![0; length.next_multiple_of(4)])
    };
    vec![
        ("load", "an item".into(), case_on(&page, Call::Load, |_| ())),
        ("raw read", "an entry".into(), case_on(&page, Call::RawRead, |_| ())),
        ("load data", "33 bytes".into(), data(33)),
        ("load data", "4,000 bytes".into(), data(4000)),
        ("entry state", "entry 77".into(), case_on(&page, Call::EntryState, |case| case.index = 77)),
        ("statistics", "a full page".into(), case_on(&page, Call::Statistics, |_| ())),
        ("hash bound", "an empty page".into(), case_on(&page_with(0), Call::HashBound, |_| ())),
        ("hash bound", "a full page".into(), case_on(&page, Call::HashBound, |_| ())),
    ]
}

fn appends() -> Vec<Row> {
    let (fresh, half, last) = (page_with(0), page_with(63), page_with(125));
    let variable = |page: &Page, length: usize| {
        case_on(page, Call::AppendVariable, |case| {
            case.type_byte = 0x42;
            draw_data(&mut Random(3), length, &mut case.data);
        })
    };
    let single = |page: &Page| case_on(page, Call::AppendSingle, |_| ());
    vec![
        ("append single", "a fresh page".into(), single(&fresh)),
        ("append single", "a page half full".into(), single(&half)),
        ("append single", "the last entry".into(), single(&last)),
        ("append namespace", "a fresh page".into(), case_on(&fresh, Call::AppendNamespace, |_| ())),
        ("append variable", "33 bytes, a fresh page".into(), variable(&fresh, 33)),
        ("append variable", "33 bytes, a page half full".into(), variable(&half, 33)),
        ("append variable", "4,000 bytes, a fresh page".into(), variable(&fresh, 4000)),
    ]
}

fn others() -> Vec<Row> {
    let (fresh, full) = (page_with(0), page_with(ENTRIES));
    let whole = page_with_payload(4000);
    let blank = Page { image: [0xFF; SECTOR], record: Record::default() };
    let copy = |length: usize| case_on(&fresh, Call::CopyIn, |case| case.source = page_with_payload(length).image);
    let spanned = |call, span| case_on(&whole, call, |case| case.span = span);
    let erased = |page: &Page| {
        case_on(page, Call::PurgeNamespace, |case| {
            for index in 0..case.record.next_free() {
                case.record.set_mark(index, 0);
            }
        })
    };
    vec![
        ("copy in", "span 1".into(), copy(0)),
        ("copy in", "span 3".into(), copy(33)),
        ("copy in", "span 126".into(), copy(4000)),
        ("erase", "span 1".into(), spanned(Call::Erase, 1)),
        ("erase", "span 126".into(), spanned(Call::Erase, 126)),
        ("purge", "span 1".into(), spanned(Call::Purge, 1)),
        ("purge", "span 126".into(), spanned(Call::Purge, 126)),
        ("purge by namespace", "nothing erased".into(), case_on(&fresh, Call::PurgeNamespace, |_| ())),
        ("purge by namespace", "all erased".into(), erased(&full)),
        ("purge by namespace", "one item of 126 entries".into(), erased(&whole)),
        ("initialise", "a blank page".into(), case_on(&blank, Call::Initialise, |case| case.number = 7)),
        ("mark full", "a fresh page".into(), case_on(&fresh, Call::MarkFull, |_| ())),
    ]
}

/// Against the Rust's `load_sector`, which follows other rules: it checks no payload CRC of a Written item.
fn openings() -> Vec<Row> {
    let blank = Page { image: [0xFF; SECTOR], record: Record::default() };
    let pages = [
        (blank, "a blank sector"),
        (page_with(0), "a fresh page"),
        (page_with(63), "a page half full"),
        (page_with(ENTRIES), "a full page"),
        (page_with_payload(4000), "one item of 4,000 bytes"),
    ];
    let row = |(page, input): &(Page, &str)| -> Row {
        ("open (load_sector, another rule)", input.to_string(), case_on(page, Call::Open, |_| ()))
    };
    pages.iter().map(row).collect()
}
