//! Pages in long random histories: every step is a case, and the page goes on as the Rust left it.

use compare::case::{Call, Case};
use compare::flash::SECTOR;
use compare::record::{ACTIVE, ENTRIES, Record, UNINITIALIZED};

use super::sectors::draw_erase;
use crate::check::{Runner, Stops};
use crate::domain::is_fit;
use crate::pages::*;
use crate::random::Random;

pub fn run(runner: &mut Runner, random: &mut Random, cases: u64) {
    let mut case = Case::new(Call::Initialise);
    while runner.report.cases < cases {
        history(runner, random, &mut case);
    }
}

/// One page from its first byte to long after it is full. The page before it is what copies come from.
fn history(runner: &mut Runner, random: &mut Random, case: &mut Case) {
    case.source = case.image;
    case.image = [0xFF; SECTOR];
    case.record = Record::default();
    case.call = Call::Initialise;
    let steps = 50 + random.below(500);
    for _ in 0..steps {
        let done = step(runner, random, case);
        let can_stop = case.call.can_stop() && done;
        if can_stop && random.once_in(40) {
            cut(runner, random, case);
            if !is_fit(&case.record) {
                return;
            }
        } else if case.call.writes_image() && done {
            runner.advance(case);
        }
        case.call = draw_call(random, case.record.state);
    }
}

fn draw_call(random: &mut Random, state: u8) -> Call {
    use Call::*;
    const ON_ANY_PAGE: [Call; 12] = [
        Erase,
        Erase,
        Erase,
        Load,
        Load,
        LoadData,
        LoadData,
        RawRead,
        Statistics,
        HashBound,
        PurgeNamespace,
        EntryState,
    ];
    const ON_ACTIVE: [Call; 10] = [
        AppendSingle,
        AppendSingle,
        AppendSingle,
        AppendSingle,
        AppendVariable,
        AppendVariable,
        AppendVariable,
        AppendNamespace,
        CopyIn,
        CopyIn,
    ];
    if state == UNINITIALIZED {
        Initialise
    } else if random.once_in(400) {
        random.pick(&[MarkFull, Purge])
    } else if state == ACTIVE && random.once_in(2) {
        random.pick(&ON_ACTIVE)
    } else {
        random.pick(&ON_ANY_PAGE)
    }
}

/// Whether the call was done.
fn step(runner: &mut Runner, random: &mut Random, case: &mut Case) -> bool {
    draw_request(random, case);
    if case.call == Call::AppendVariable {
        let length = draw_length(random, ENTRIES - case.record.next_free());
        draw_data(random, length, &mut case.data);
    }
    case.index = random.below(ENTRIES) as u64;
    if case.call == Call::Erase || case.call == Call::LoadData {
        draw_listed(random, case);
    }
    let length = random.pick(&[0, 36, 200, LONGEST]);
    case.output.resize(length, 0x5A);
    runner.check(case, if random.once_in(60) { Stops::Every } else { Stops::AtTheEnd })
}

/// Mostly short; at times what just fits or just does not.
fn draw_length(random: &mut Random, free: usize) -> usize {
    match random.below(20) {
        0 => (ITEM * free).saturating_sub(random.below(70)),
        1 => random.below(LONGEST + 40),
        2..6 => random.below(400),
        _ => random.below(70),
    }
}

/// An item of the list with its span, or else a run of Written entries.
fn draw_listed(random: &mut Random, case: &mut Case) {
    let listed = case.record.list.len();
    if listed == 0 || random.once_in(8) {
        return draw_erase(random, case);
    }
    let index = case.record.list[random.below(listed)].index;
    case.index = index.into();
    case.span = case.image[entry(index.into()) + 2].into();
}

/// The power goes during the call just made: the page goes on as the Rust's own scan settles what the first units left.
fn cut(runner: &mut Runner, random: &mut Random, case: &mut Case) {
    let oracle = &mut runner.sides.oracle;
    let mut torn = case.clone();
    let units = random.below(oracle.units().len() + 1);
    for unit in &oracle.units()[..units] {
        unit.program(&mut torn.image);
    }
    torn.call = Call::Open;
    oracle.run(&torn, &mut runner.sides.expected);
    case.image.copy_from_slice(&runner.sides.expected.image);
    case.record.clone_from(&oracle.record);
}
