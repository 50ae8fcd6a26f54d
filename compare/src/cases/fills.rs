//! Appends and copies at every fill level, and their stops.

use compare::case::{Call, Case};
use compare::record::{ACTIVE, ENTRIES};

use crate::check::{Runner, Stops};
use crate::domain::{BLOB_INDEX, PAYLOADS, PRIMITIVES};
use crate::pages::*;
use crate::random::Random;

/// Two pages at a fill level: one written item by item, one with a record that is only fit.
fn pages_at(writer: &mut Writer, random: &mut Random, next_free: usize) -> [Page; 2] {
    let written = writer.filled(random, next_free);
    let mut loose = draw_damaged(random);
    loose.record = draw_record(random, next_free);
    loose.record.state = ACTIVE;
    if random.once_in(2) {
        loose.image[entry(next_free.min(ENTRIES))..].fill(0xFF);
    }
    [written, loose]
}

/// 0 to 4,100 bytes, past the longest payload, with tails of 0xFF and without.
pub fn every_length(runner: &mut Runner, random: &mut Random) {
    let fresh = Writer::default().filled(random, 0);
    let mut case = Case::new(Call::AppendVariable);
    fresh.lend(&mut case);
    for length in 0..=LONGEST + 100 {
        for _ in 0..3 {
            draw_request(random, &mut case);
            draw_data(random, length, &mut case.data);
            runner.check(&case, Stops::AtTheEnd);
        }
    }
}

pub fn every_level(runner: &mut Runner, random: &mut Random) {
    let mut writer = Writer::default();
    let mut case = Case::new(Call::AppendSingle);
    for next_free in (0..=ENTRIES).chain(0..=ENTRIES) {
        for page in pages_at(&mut writer, random, next_free) {
            page.lend(&mut case);
            singles(runner, random, &mut case);
            variables(runner, random, &mut case, ENTRIES - next_free);
        }
    }
}

/// Every single type in namespace 0 and outside, a namespace entry, and the mark alone.
fn singles(runner: &mut Runner, random: &mut Random, case: &mut Case) {
    case.call = Call::AppendSingle;
    for type_byte in PRIMITIVES.into_iter().chain([BLOB_INDEX]) {
        for namespace in 0..2 {
            draw_request(random, case);
            (case.namespace, case.type_byte) = (namespace, type_byte);
            runner.check(case, Stops::AtTheEnd);
        }
    }
    for call in [Call::AppendNamespace, Call::MarkFull] {
        case.call = call;
        draw_request(random, case);
        runner.check(case, Stops::AtTheEnd);
    }
}

/// Every length whose span is the free entries, one less or one more, and lengths that no page holds.
fn variables(runner: &mut Runner, random: &mut Random, case: &mut Case, free: usize) {
    case.call = Call::AppendVariable;
    let lowest = ITEM * free.saturating_sub(3);
    for length in (lowest..=ITEM * free).chain([0, LONGEST, LONGEST + 1, LONGEST + ITEM, LONGEST + 33, 70_000]) {
        for type_byte in PAYLOADS {
            draw_request(random, case);
            draw_data(random, length, &mut case.data);
            case.type_byte = type_byte;
            runner.check(case, Stops::AtTheEnd);
        }
    }
}

/// Every span from 0 to past the page, at the source's start, at its end and one past that, at every fill level.
pub fn every_copy(runner: &mut Runner, random: &mut Random) {
    let mut writer = Writer::default();
    let mut case = Case::new(Call::CopyIn);
    for next_free in 0..=ENTRIES {
        let [written, loose] = pages_at(&mut writer, random, next_free);
        random.fill(&mut case.source);
        for span in (0..=ENTRIES + 2).chain([200, 255]) {
            let last = ENTRIES.saturating_sub(span);
            let drawn = random.below(ENTRIES);
            for index in [0, last.min(ENTRIES - 1), (last + 1).min(ENTRIES - 1), drawn] {
                let page = if random.once_in(2) { &written } else { &loose };
                page.lend(&mut case);
                let type_byte = draw_type(random);
                let item = draw_item(random, type_byte, span as u8);
                put_item(&mut case.source, index, &item);
                case.index = index as u64;
                runner.check(&case, Stops::AtTheEnd);
            }
        }
    }
}

/// Appends and copies of several lengths at every fill level, stopped after every n.
pub fn every_stop(runner: &mut Runner, random: &mut Random) {
    let mut writer = Writer::default();
    let mut case = Case::new(Call::AppendSingle);
    for next_free in 0..ENTRIES {
        let free = ENTRIES - next_free;
        for page in pages_at(&mut writer, random, next_free) {
            page.lend(&mut case);
            for call in [Call::AppendSingle, Call::AppendNamespace] {
                case.call = call;
                draw_request(random, &mut case);
                runner.check(&case, Stops::Every);
            }
            case.call = Call::AppendVariable;
            for length in [0, 1, 31, 32, 33, 100, ITEM * (free - 1)] {
                draw_request(random, &mut case);
                draw_data(random, length, &mut case.data);
                runner.check(&case, Stops::Every);
            }
            stopped_copies(runner, random, &mut case, free);
        }
    }
}

fn stopped_copies(runner: &mut Runner, random: &mut Random, case: &mut Case, free: usize) {
    case.call = Call::CopyIn;
    random.fill(&mut case.source);
    for span in [1, 2, free.div_ceil(2), free] {
        let index = random.below(ENTRIES + 1 - span);
        let type_byte = draw_type(random);
        let item = draw_item(random, type_byte, span as u8);
        put_item(&mut case.source, index, &item);
        case.index = index as u64;
        runner.check(case, Stops::Every);
    }
}

/// Initialise with many sequences, stopped after every n. One has the header CRC 0xFFFFFFFF.
pub fn sequences(runner: &mut Runner, random: &mut Random) {
    let mut case = Case::new(Call::Initialise);
    for round in 0..40_000 {
        case.number = match round {
            0 => 0x1E78_B235,
            1..=1000 => round,
            1001..=2000 => u32::MAX - (round - 1001),
            _ => random.draw() as u32,
        };
        runner.check(&case, Stops::Every);
    }
}
