//! The smallest input that still shows a difference: one simplification after the other, as long as it stays.

use compare::case::{Call, Case, NO_STOP};
use compare::flash::SECTOR;
use compare::record::{ACTIVE, EMPTY, ENTRIES};

use crate::check::{Part, Sides};

/// How much there is to read in an input.
pub fn weight(case: &Case) -> u64 {
    let programmed = |bytes: &[u8]| bytes.iter().filter(|&&byte| byte != 0xFF).count() as u64;
    let set = |bytes: &[u8]| bytes.iter().filter(|&&byte| byte != 0).count() as u64;
    let record = &case.record;
    let numbers = [case.namespace, case.chunk, case.value, record.version].map(u64::from);
    let wide = [case.index, case.span, case.number.into(), record.sequence.into(), record.header_crc.into()];
    programmed(&case.image) * 4
        + programmed(&case.source) * 4
        + programmed(&record.map)
        + record.next_free() as u64 * 2
        + record.list.iter().map(|place| 8 + (place.hash != 0) as u64).sum::<u64>()
        + case.data.len() as u64 * 8
        + set(&case.data)
        + case.output.len() as u64
        + set(&case.key)
        + set(&case.single)
        + numbers.map(|number| (number != 0) as u64).iter().sum::<u64>()
        + wide.map(|number| (u64::BITS - number.leading_zeros()) as u64 * 2 + number % 2).iter().sum::<u64>()
}

/// Simplifies until nothing simpler differs in the same part.
pub fn smallest(case: &Case, part: Part, stopped: bool, sides: &mut Sides) -> Case {
    let mut best = case.clone();
    loop {
        let limit = weight(&best);
        let still = |case: &Case| {
            weight(case) < limit
                && sides.difference(case).is_some_and(|found| found.part == part && stopped == (found.stop != NO_STOP))
        };
        match simpler(&best).into_iter().find(still) {
            Some(case) => best = case,
            None => return best,
        }
    }
}

/// The input with one thing made simpler, the large things first.
fn simpler(case: &Case) -> Vec<Case> {
    let mut all = Vec::new();
    sectors(case, &mut all);
    records(case, &mut all);
    bytes(case, &mut all);
    numbers(case, &mut all);
    all
}

fn with(case: &Case, all: &mut Vec<Case>, change: impl Fn(&mut Case)) {
    let mut changed = case.clone();
    change(&mut changed);
    all.push(changed);
}

fn sectors(case: &Case, all: &mut Vec<Case>) {
    with(case, all, |case| case.source = [0xFF; SECTOR]);
    with(case, all, |case| case.image = [0xFF; SECTOR]);
    for line in 0..SECTOR / 32 {
        let place = 32 * line..32 * line + 32;
        if case.image[place.clone()].iter().any(|&byte| byte != 0xFF) {
            with(case, all, |case| case.image[place.clone()].fill(0xFF));
        }
        if case.source[place.clone()].iter().any(|&byte| byte != 0xFF) {
            with(case, all, |case| case.source[place.clone()].fill(0xFF));
        }
    }
}

fn records(case: &Case, all: &mut Vec<Case>) {
    if case.call != Call::Initialise {
        with(case, all, |case| case.record.state = ACTIVE);
    }
    with(case, all, |case| case.record.list.clear());
    with(case, all, |case| case.record.map = [0xFF; 32]);
    with(case, all, |case| (case.record.used, case.record.erased) = (0, 0));
    with(case, all, |case| (case.record.sequence, case.record.version, case.record.header_crc) = (0, 0, 0));
    with(case, all, |case| case.record.erased = 0);
    with(case, all, |case| case.record.used /= 2);
    with(case, all, |case| case.record.used = case.record.used.saturating_sub(1));
    with(case, all, |case| case.record.erased = case.record.erased.saturating_sub(1));
    for place in 0..case.record.list.len() {
        with(case, all, |case| {
            case.record.list.remove(place);
        });
    }
    for index in (0..ENTRIES).filter(|&index| case.record.mark(index) != EMPTY) {
        with(case, all, |case| case.record.set_mark(index, EMPTY));
    }
}

fn bytes(case: &Case, all: &mut Vec<Case>) {
    with(case, all, |case| case.data.clear());
    with(case, all, |case| case.data.truncate(case.data.len() / 2));
    with(case, all, |case| case.data.truncate(case.data.len().saturating_sub(32)));
    with(case, all, |case| case.data.truncate(case.data.len().saturating_sub(1)));
    with(case, all, |case| case.data.fill(0));
    with(case, all, |case| {
        let kept = case.data.len().saturating_sub(4);
        case.data[..kept].fill(0);
    });
    with(case, all, |case| case.output.clear());
    with(case, all, |case| case.output.truncate(case.output.len() / 2));
    with(case, all, |case| case.output.truncate(case.output.len().saturating_sub(1)));
    with(case, all, |case| case.key = [0; 16]);
    with(case, all, |case| case.single = [0; 8]);
}

fn numbers(case: &Case, all: &mut Vec<Case>) {
    with(case, all, |case| case.namespace = 0);
    with(case, all, |case| case.namespace = 1);
    with(case, all, |case| case.chunk = 0);
    with(case, all, |case| case.value = 0);
    with(case, all, |case| case.number = 0);
    with(case, all, |case| case.index = 0);
    with(case, all, |case| case.index /= 2);
    with(case, all, |case| case.index = case.index.saturating_sub(1));
    with(case, all, |case| case.span = 1);
    with(case, all, |case| case.span /= 2);
    with(case, all, |case| case.span = case.span.saturating_sub(1));
}
