//! The differences outside 01's domain: each with a small input, run on both sides, printed as rows of a table.

use compare::case::*;
use compare::flash::Unit;
use compare::oracle::Oracle;
use compare::record::*;

use crate::ours::Ours;
use crate::pages::*;
use crate::random::Random;
use crate::report::STATES;

/// What is done, what 01 or 02 says of it, and the call.
type Row = (&'static str, &'static str, Case);

pub fn print() {
    let groups = [
        ("Requests", requests()),
        ("States", states()),
        ("Indices and spans", spans()),
        ("Records", records()),
        ("Unknown type bytes (02, R-5)", unknown_types()),
        ("Opening, against the Rust's `load_sector`", openings()),
    ];
    for (name, rows) in groups {
        println!("### {name}\n\n| input | asked | the Rust | ours |\n|---|---|---|---|");
        for (input, says, case) in rows {
            let (rusts, ours) = run(&case);
            println!("| {input} | {says} | {rusts} | {ours} |");
        }
        println!();
    }
}

fn run(case: &Case) -> (String, String) {
    let mut oracle = Oracle::default();
    let (mut rusts, mut ours) = (Outcome::default(), Outcome::default());
    oracle.run(case, &mut rusts);
    Ours::default().run(case, NO_STOP, &mut ours);
    let past_page: Vec<&Unit> = oracle.units().iter().filter(|unit| unit.address >= 4096).collect();
    let mut text = told(case, &rusts);
    if let Some(first) = past_page.first() {
        text += &format!("; {} units past the page, the first at byte {}", past_page.len(), first.address);
    }
    (text, told(case, &ours))
}

/// The answer, what the call changed in the record, the bytes it changed outside the entries, and how many in them.
fn told(case: &Case, outcome: &Outcome) -> String {
    let mut parts = vec![name_of_number(outcome.returned).to_string()];
    if outcome.returned == PANICKED {
        return "panics".into();
    }
    if case.call == Call::EntryState && outcome.returned == DONE {
        parts.push(format!("the bits {:02b}", outcome.answer[1]));
    }
    if case.call == Call::RawRead && outcome.returned == DONE {
        parts.push("32 bytes".into());
    }
    if !outcome.record.is_empty() {
        parts.extend(changed_record(case, &outcome.record));
    }
    if !outcome.image.is_empty() {
        let changed = (0..64).filter(|&at| outcome.image[at] != case.image[at]);
        let changed = changed.map(|at| format!("byte {at} {:02x} to {:02x}", case.image[at], outcome.image[at]));
        parts.extend(changed.take(4));
        let in_entries = (64..4096).filter(|&at| outcome.image[at] != case.image[at]).count();
        parts.extend((in_entries > 0).then(|| format!("{in_entries} bytes of entries")));
    }
    parts.join(", ")
}

fn changed_record(case: &Case, record: &[u8]) -> Vec<String> {
    let mut before = [0; RECORD];
    case.record.encode(&mut before);
    let opened = case.call == Call::Open;
    let named =
        |(name, at): (&str, usize)| (opened || record[at] != before[at]).then(|| format!("{name} {}", record[at]));
    let state = (opened || record[0] != before[0]).then(|| STATES[record[0] as usize].to_string());
    let counts = [("used", 42), ("erased", 43), ("listed", 44)].into_iter().filter_map(named);
    state.into_iter().chain(counts).collect()
}

/// A page with so many entries written, one single each.
fn page_of_singles(entries: usize) -> Case {
    let mut random = Random(entries as u64);
    let mut case = Case::new(Call::Initialise);
    let (mut oracle, mut outcome) = (Oracle::default(), Outcome::default());
    for step in 0..=entries {
        oracle.run(&case, &mut outcome);
        case.image.copy_from_slice(&outcome.image);
        case.record.clone_from(&oracle.record);
        case.call = Call::AppendSingle;
        draw_request(&mut random, &mut case);
        (case.namespace, case.type_byte, case.number) = (1, 0x01, step as u32);
    }
    case
}

fn with(mut case: Case, call: Call, change: impl Fn(&mut Case)) -> Case {
    case.call = call;
    change(&mut case);
    case
}

fn requests() -> Vec<Row> {
    const BAD: &str = "BadRequest";
    let single = |entries, change: fn(&mut Case)| with(page_of_singles(entries), Call::AppendSingle, change);
    let variable = |change: fn(&mut Case)| with(page_of_singles(0), Call::AppendVariable, change);
    vec![
        (
            "single of span 0, 126 entries used, Active",
            BAD,
            single(126, |case| {
                (case.span, case.record.state, case.image[0]) = (0, ACTIVE, 0xFE);
            }),
        ),
        ("single of span 0, fresh page", BAD, single(0, |case| case.span = 0)),
        ("single of span 3, fresh page", BAD, single(0, |case| case.span = 3)),
        ("single of type Sized, fresh page", BAD, single(0, |case| case.type_byte = 0x21)),
        ("single of type Any, fresh page", BAD, single(0, |case| case.type_byte = 0xFF)),
        ("variable item of type U8, fresh page", BAD, variable(|case| case.type_byte = 0x01)),
        (
            "variable item in namespace 0, fresh page",
            BAD,
            variable(|case| {
                (case.type_byte, case.namespace) = (0x21, 0);
            }),
        ),
    ]
}

fn states() -> Vec<Row> {
    const WRONG: &str = "WrongState";
    let full = |case: &mut Case| (case.record.state, case.image[0]) = (FULL, 0xFC);
    let in_state = |call, state| with(page_of_singles(1), call, |case| case.record.state = state);
    vec![
        ("mark full, Full", WRONG, with(page_of_singles(1), Call::MarkFull, full)),
        (
            "mark full, Freeing",
            WRONG,
            with(page_of_singles(1), Call::MarkFull, |case| {
                (case.record.state, case.image[0]) = (FREEING, 0xF8);
            }),
        ),
        ("mark full, Corrupt", WRONG, in_state(Call::MarkFull, CORRUPT)),
        (
            "single, Full after mark full with 125 entries free",
            WRONG,
            with(page_of_singles(1), Call::AppendSingle, full),
        ),
        ("single, Full with no entry free", WRONG, page_of_singles(126)),
        ("erase (0, 1), Corrupt", WRONG, with(in_state(Call::Erase, CORRUPT), Call::Erase, |case| case.index = 0)),
        ("initialise, Active", WRONG, with(page_of_singles(0), Call::Initialise, |case| case.number = 5)),
        (
            "initialise, byte 4 programmed to 0x00",
            "CorruptedData",
            with(Case::new(Call::Initialise), Call::Initialise, |case| {
                (case.number, case.image[4]) = (1, 0);
            }),
        ),
    ]
}

fn spans() -> Vec<Row> {
    const OFF: &str = "CorruptedData";
    let erase = |entries, index, span| {
        with(page_of_singles(entries), Call::Erase, |case| (case.index, case.span) = (index, span))
    };
    let at = |call, index| with(page_of_singles(1), call, |case| case.index = index);
    vec![
        ("erase (0, 0)", OFF, erase(1, 0, 0)),
        ("erase (1, 0)", OFF, erase(2, 1, 0)),
        ("erase (125, 2), all 126 Written", OFF, erase(126, 125, 2)),
        ("erase (128, 1)", OFF, erase(1, 128, 1)),
        ("erase (200, 100)", OFF, erase(1, 200, 100)),
        ("erase (1, 1), entry 1 Empty, one used", "NotWritten", erase(1, 1, 1)),
        ("entry state of 126", OFF, at(Call::EntryState, 126)),
        ("entry state of 128", OFF, at(Call::EntryState, 128)),
        ("load of 126", OFF, at(Call::Load, 126)),
        ("raw read of 126", OFF, at(Call::RawRead, 126)),
    ]
}

fn records() -> Vec<Row> {
    const UNFIT: &str = "BadRecord";
    let single = |change: fn(&mut Case)| with(page_of_singles(0), Call::AppendSingle, change);
    vec![
        ("single, used 200 and erased 200", UNFIT, single(|case| (case.record.used, case.record.erased) = (200, 200))),
        (
            "single, used 0 though entry 0 is Written",
            UNFIT,
            with(page_of_singles(1), Call::AppendSingle, |case| {
                case.record.used = 0;
            }),
        ),
        (
            "single, a listed index of 126",
            UNFIT,
            single(|case| {
                case.record.used = 1;
                case.record.list.push(Listed { hash: 0, index: 126 });
            }),
        ),
    ]
}

/// Type byte 0x05, its CRC made over 0xFF, in entry 0 of a page.
fn unknown_types() -> Vec<Row> {
    const NOT_FOUND: &str = "KeyNotFound";
    let mut item = plain(1, 1);
    item[1] = 0x05;
    seal_as_any(&mut item);
    let at_0 = |call| {
        with(page_of_singles(0), call, |case| {
            put_item(&mut case.image, 0, &item);
            case.output.resize(4, 0);
        })
    };
    let copied = with(page_of_singles(0), Call::CopyIn, |case| put_item(&mut case.source, 0, &item));
    let erased = with(at_0(Call::PurgeNamespace), Call::PurgeNamespace, |case| {
        (case.namespace, case.record.erased) = (1, 1);
        case.record.set_mark(0, ERASED);
    });
    vec![
        ("load", NOT_FOUND, at_0(Call::Load)),
        ("load data", NOT_FOUND, at_0(Call::LoadData)),
        ("copy in, to a fresh page", NOT_FOUND, copied),
        ("purge of its namespace, entry 0 Erased", "the entry stays", erased),
        ("opening, entry 0 Written", "Erased: unknown type", page_to_open(&[WRITTEN], item, &[])),
    ]
}

/// A page on which these bytes lie at entry 0, with these marks.
fn page_to_open(marks: &[u8], item: Item, payload: &[u8]) -> Case {
    let mut case = page_of_singles(0);
    put_item(&mut case.image, 0, &item);
    case.image[entry(1)..entry(1) + payload.len()].copy_from_slice(payload);
    for (index, mark) in marks.iter().enumerate() {
        case.record.set_mark(index, *mark);
    }
    case.image[32..64].copy_from_slice(&case.record.map);
    case.record = Record::default();
    case.call = Call::Open;
    case
}

/// A payload item of span 2, 32 bytes of payload with the CRC of `summed`.
fn blob(namespace: u8, size: u16, summed: &[u8]) -> Item {
    let mut item = draw_item(&mut Random(9), 0x42, 2);
    item[0] = namespace;
    item[24..26].copy_from_slice(&size.to_le_bytes());
    item[26..28].fill(0xFF);
    item[28..].copy_from_slice(&compare::oracle::crc(summed).to_le_bytes());
    seal(&mut item);
    item
}

fn plain(namespace: u8, span: u8) -> Item {
    let mut item = draw_item(&mut Random(9), 0x01, span);
    item[0] = namespace;
    seal(&mut item);
    item
}

fn openings() -> Vec<Row> {
    let payload = [0x5A; 32];
    let (whole, wrong_sum, too_big) = (blob(1, 32, &payload), blob(1, 32, &[]), blob(1, 33, &payload));
    let on = |marks: &[u8], item: Item| page_to_open(marks, item, &payload);
    let alone = |marks: &[u8], item: Item| page_to_open(marks, item, &[]);
    let mut rows = vec![
        ("entry 0 Empty, a whole U8 in it", "Erased: bytes under an Empty mark", alone(&[], plain(1, 1))),
        ("entries 0 and 1 Empty, a whole blob in them", "both Erased", on(&[], whole)),
        ("blob of span 2 Written, entry 1 Empty", "kept, entry 1 becomes Written", on(&[WRITTEN], whole)),
        ("blob of span 2 Written, payload CRC wrong", "both Erased", on(&[WRITTEN; 2], wrong_sum)),
        ("blob of span 2 Written, size 33", "both Erased", on(&[WRITTEN; 2], too_big)),
        ("U8 of span 2, both Written", "both Erased", on(&[WRITTEN; 2], plain(1, 2))),
        ("U8 of span 2, entry 1 Empty and blank", "Erased, entry 1 is free", alone(&[WRITTEN], plain(1, 2))),
        ("entry 0 Illegal, blank", "Erased", alone(&[ILLEGAL], [0xFF; ITEM])),
        ("blob of span 2 in namespace 0, both Written", "kept, not listed", on(&[WRITTEN; 2], blob(0, 32, &payload))),
    ];
    rows.extend(headers());
    rows
}

fn headers() -> Vec<Row> {
    const REFUSED: &str = "CorruptedData";
    let blank = |change: fn(&mut Case)| with(page_to_open(&[], [0xFF; ITEM], &[]), Call::Open, change);
    let old_edition = blank(|case| {
        case.image[8] = 0xFF;
        let sum = compare::oracle::crc(&case.image[4..28]);
        case.image[28..32].copy_from_slice(&sum.to_le_bytes());
    });
    let headless = blank(|case| {
        case.image[..64].fill(0xFF);
        case.image[64] = 0;
    });
    vec![
        ("version 0xFF, header CRC right", REFUSED, old_edition),
        ("header CRC wrong", REFUSED, blank(|case| case.image[28] ^= 1)),
        ("state word 0", REFUSED, blank(|case| case.image[..4].fill(0))),
        ("header blank, byte 64 programmed", REFUSED, headless),
    ]
}
