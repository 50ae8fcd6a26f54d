//! Calls on sectors full of damage, and on records that are only just fit to use.

use compare::case::{Call, Case};
use compare::record::{ACTIVE, ENTRIES, FREEING, FULL, WRITTEN};

use crate::check::{Runner, Stops};
use crate::domain::PAYLOADS;
use crate::pages::*;
use crate::random::Random;

/// Items of every type byte, with a CRC over it, over 0xFF and wrong, at both ends of a page.
pub fn every_item(runner: &mut Runner, random: &mut Random) {
    let mut case = Case::new(Call::Load);
    random.fill(&mut case.image);
    for type_byte in 0..=255u8 {
        for seal_kind in 0..3 {
            for index in [0, 1, 60, ENTRIES - 2, ENTRIES - 1] {
                let room = (ENTRIES - index) as u8;
                for span in [0, 1, 2, 3, room, room + 1, 255] {
                    let mut item = draw_item(random, type_byte, span);
                    if random.once_in(2) {
                        // A size that any span but 0 holds, or most do.
                        item[24..26].copy_from_slice(&[random.pick(&[0, 0, 1, 32]), 0]);
                    }
                    match seal_kind {
                        0 => seal(&mut item),
                        1 => seal_as_any(&mut item),
                        _ => item[4] ^= 1,
                    }
                    put_item(&mut case.image, index, &item);
                    reads(runner, random, &mut case, index);
                }
            }
        }
    }
    sizes(runner, random);
}

/// Payload items of every span, of no size and of every size at the edge of the span, where the span just fits the page
/// and where it just leaves it.
fn sizes(runner: &mut Runner, random: &mut Random) {
    let mut case = Case::new(Call::Load);
    random.fill(&mut case.image);
    for span in 0..=ENTRIES + 2 {
        let held = ITEM * span.saturating_sub(1);
        for size in (held.saturating_sub(ITEM + 2)..=held + 2).chain([0]) {
            let type_byte = random.pick(&PAYLOADS);
            let mut item = draw_item(random, type_byte, span as u8);
            item[24..26].copy_from_slice(&(size as u16).to_le_bytes());
            seal(&mut item);
            let last = ENTRIES.saturating_sub(span).min(ENTRIES - 1);
            for index in [last, (last + 1).min(ENTRIES - 1), random.below(last + 1)] {
                put_item(&mut case.image, index, &item);
                reads(runner, random, &mut case, index);
            }
        }
    }
}

/// Raw read, load, and load data with outputs around the size rounded up.
fn reads(runner: &mut Runner, random: &mut Random, case: &mut Case, index: usize) {
    case.index = index as u64;
    case.call = Call::RawRead;
    runner.check(case, Stops::AtTheEnd);
    case.call = Call::Load;
    let loads = runner.check(case, Stops::AtTheEnd);
    case.call = Call::LoadData;
    let size = &case.image[entry(index) + 24..entry(index) + 26];
    let size = u16::from_le_bytes([size[0], size[1]]) as usize;
    let enough = size.next_multiple_of(4).min(LONGEST + ITEM);
    let drawn = random.below(LONGEST + ITEM);
    let lengths = [enough, enough.saturating_sub(1), enough + 1 + drawn % 3, drawn];
    for length in &lengths[..if loads { 4 } else { 1 }] {
        case.output.resize(*length, 0x5A);
        runner.check(case, Stops::AtTheEnd);
    }
}

pub fn every_purge(runner: &mut Runner, random: &mut Random) {
    let mut case = Case::new(Call::Purge);
    for _ in 0..4 {
        draw_damaged(random).lend(&mut case);
        for index in 0..=255 {
            for span in 0..=255 {
                (case.index, case.span) = (index, span);
                runner.check(&case, Stops::AtTheEnd);
            }
        }
    }
    // Numbers that no byte holds: none may be taken for its low byte.
    let large = [256, 257, 256 + 125, 65_536 + 3, 1 << 32, (1 << 32) + 5, 1 << 63, u64::MAX];
    for (wide, narrow) in large.into_iter().flat_map(|wide| (0..ENTRIES as u64).map(move |narrow| (wide, narrow))) {
        for (index, span) in [(wide, narrow), (narrow, wide), (wide, wide)] {
            (case.index, case.span) = (index, span);
            runner.check(&case, Stops::AtTheEnd);
        }
    }
}

/// Every range of a page whose entries are all Written, in each state that erase takes.
pub fn every_erase(runner: &mut Runner, random: &mut Random) {
    let mut case = Case::new(Call::Erase);
    for state in [ACTIVE, FULL, FREEING] {
        for index in 0..ENTRIES {
            draw_damaged(random).lend(&mut case);
            case.record = draw_record(random, ENTRIES);
            (case.record.state, case.record.used, case.record.erased) = (state, ENTRIES as u8, 0);
            (0..ENTRIES).for_each(|entry| case.record.set_mark(entry, WRITTEN));
            for span in 1..=ENTRIES - index {
                (case.index, case.span) = (index as u64, span as u64);
                runner.check(&case, Stops::AtTheEnd);
            }
        }
    }
}

/// Every entry of a damaged sector read, its bound and counts taken, and its namespaces purged.
pub fn damaged(runner: &mut Runner, random: &mut Random) {
    let mut case = Case::new(Call::Load);
    for _ in 0..4000 {
        draw_damaged(random).lend(&mut case);
        for index in 0..ENTRIES {
            reads(runner, random, &mut case, index);
        }
        for call in [Call::HashBound, Call::Statistics] {
            case.call = call;
            runner.check(&case, Stops::AtTheEnd);
        }
        case.call = Call::PurgeNamespace;
        for namespace in [0, 1, 2, 3, random.byte()] {
            case.namespace = namespace;
            runner.check(&case, Stops::AtTheEnd);
        }
    }
    bounds(runner, random);
}

/// The hash bound over many maps of one sector.
fn bounds(runner: &mut Runner, random: &mut Random) {
    let mut case = Case::new(Call::HashBound);
    for round in 0..200_000 {
        if round % 50 == 0 {
            draw_damaged(random).lend(&mut case);
        }
        case.record = draw_record(random, ENTRIES);
        runner.check(&case, Stops::AtTheEnd);
    }
}

/// Every entry of a damaged sector copied into a page with more or less room.
pub fn copies(runner: &mut Runner, random: &mut Random) {
    let mut writer = Writer::default();
    let mut case = Case::new(Call::CopyIn);
    for _ in 0..3000 {
        let next_free = random.below(ENTRIES + 1);
        writer.filled(random, next_free).lend(&mut case);
        case.source = draw_damaged(random).image;
        for index in 0..ENTRIES {
            if loads(&case.source, index) || random.once_in(8) {
                case.index = index as u64;
                runner.check(&case, if random.once_in(200) { Stops::Every } else { Stops::AtTheEnd });
            }
        }
    }
}

/// Writing calls on any fit record over any sector.
pub fn records(runner: &mut Runner, random: &mut Random) {
    use Call::*;
    let calls = [AppendSingle, AppendNamespace, AppendVariable, CopyIn, Erase, Erase, PurgeNamespace, MarkFull];
    let mut case = Case::new(AppendSingle);
    for round in 0..400_000 {
        if round % 20 == 0 {
            let page = draw_damaged(random);
            case.source = case.image;
            case.image = page.image;
        }
        let next_free = random.below(ENTRIES + 1);
        case.record = draw_record(random, next_free);
        case.call = calls[round % calls.len()];
        if !matches!(case.call, Erase | PurgeNamespace) {
            case.record.state = ACTIVE;
        }
        draw_request(random, &mut case);
        let longest = if random.once_in(20) { LONGEST + 40 } else { 150 };
        let length = random.below(longest);
        draw_data(random, length, &mut case.data);
        case.index = random.below(ENTRIES) as u64;
        if case.call == Erase {
            draw_erase(random, &mut case);
        }
        runner.check(&case, if random.once_in(500) { Stops::Every } else { Stops::AtTheEnd });
    }
}

/// A range inside a run of Written entries, where there is one.
pub fn draw_erase(random: &mut Random, case: &mut Case) {
    let start = random.below(ENTRIES);
    let written = |index: &usize| case.record.mark(*index) == WRITTEN;
    if let Some(first) = (start..ENTRIES).chain(0..start).find(written) {
        let run = (first..ENTRIES).take_while(written).count();
        case.index = first as u64;
        case.span = 1 + random.below(run) as u64;
    }
}
