//! Calls without a sector: type bytes, CRCs, hashes, and what is read off a map.

use compare::case::{Call, Case};
use compare::record::{ENTRIES, Record};

use crate::check::{Runner, Stops};
use crate::domain::{ANY, BLOB_INDEX, PAYLOADS, PRIMITIVES};
use crate::pages::draw_record;
use crate::random::Random;

pub fn every_type_byte(runner: &mut Runner, _random: &mut Random) {
    for call in [Call::TypeByte, Call::Width] {
        let mut case = Case::new(call);
        for byte in 0..=255 {
            case.type_byte = byte;
            runner.check(&case, Stops::AtTheEnd);
        }
    }
}

pub fn sums(runner: &mut Runner, random: &mut Random) {
    let types = [&PRIMITIVES[..], &PAYLOADS[..], &[BLOB_INDEX, ANY]].concat();
    let mut case = Case::new(Call::Crc32);
    for round in 0..500_000 {
        case.call = [Call::Crc32, Call::ItemCrc, Call::HeaderCrc, Call::Hash][round % 4];
        let longest = if random.once_in(100) { 4096 } else { 70 };
        let length = if case.call == Call::Crc32 { random.below(longest + 1) } else { 32 };
        case.data.resize(length, 0);
        random.fill(&mut case.data);
        if case.call == Call::ItemCrc {
            case.data[1] = random.pick(&types);
        }
        let drawn = random.draw() as u32;
        case.number = random.pick(&[0, u32::MAX, drawn]);
        case.namespace = random.byte();
        case.chunk = random.byte();
        random.fill(&mut case.key);
        runner.check(&case, Stops::AtTheEnd);
    }
}

pub fn maps(runner: &mut Runner, random: &mut Random) {
    let mut case = Case::new(Call::Statistics);
    for place in 0..32 {
        for byte in 0..=255 {
            case.record.map = [0xFF; 32];
            case.record.map[place] = byte;
            runner.check(&case, Stops::AtTheEnd);
        }
    }
    for round in 0..150_000 {
        case.record = draw_map(random);
        case.call = Call::Statistics;
        runner.check(&case, Stops::AtTheEnd);
        case.call = Call::EntryState;
        // Each index now and then, one of them each time.
        for index in if round % 500 == 0 { 0..ENTRIES } else { round % ENTRIES..round % ENTRIES + 1 } {
            case.index = index as u64;
            runner.check(&case, Stops::AtTheEnd);
        }
    }
}

/// The two bits of each state.
const STATES: [u8; 4] = [0b11, 0b10, 0b00, 0b01];

/// Statistics of every entry alone in a state, among entries of each state; and of the four bits that belong to no entry, at each of their
/// values.
pub fn every_state(runner: &mut Runner, random: &mut Random) {
    let mut case = Case::new(Call::Statistics);
    for among in STATES {
        for state in STATES {
            for entry in 0..ENTRIES {
                case.record.map = [among * 0b0101_0101; 32];
                case.record.map[entry / 4] &= !(0b11 << (2 * (entry % 4)));
                case.record.map[entry / 4] |= state << (2 * (entry % 4));
                runner.check(&case, Stops::AtTheEnd);
            }
        }
    }
    for spare in 0..16 {
        for _ in 0..1_000 {
            case.record = draw_map(random);
            case.record.map[31] = case.record.map[31] & 0x0F | spare << 4;
            runner.check(&case, Stops::AtTheEnd);
        }
    }
}

/// Any map at all: these calls take no record.
fn draw_map(random: &mut Random) -> Record {
    let mut record = draw_record(random, ENTRIES);
    if random.once_in(2) {
        random.fill(&mut record.map);
    }
    record
}
