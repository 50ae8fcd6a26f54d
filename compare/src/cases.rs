//! The inputs, group by group: first everything that can be counted out, then what is drawn.

mod bytes;
mod fills;
mod histories;
mod sectors;

use crate::check::Runner;
use crate::random::Random;

type Group = fn(&mut Runner, &mut Random);

/// Each group with its name, and how much of it is recorded: of so many cases, the first so many.
const GROUPS: [(&str, Group, (u64, u64)); 15] = [
    ("every type byte", bytes::every_type_byte, (1, 1)),
    ("CRCs and hashes", bytes::sums, (1, 1009)),
    ("maps", bytes::maps, (1, 1009)),
    ("items of every type", sectors::every_item, (6, 3001)),
    ("every length on a fresh page", fills::every_length, (1, 317)),
    ("every fill level", fills::every_level, (1, 6007)),
    ("copies of every span at every fill level", fills::every_copy, (4, 5003)),
    ("every stop", fills::every_stop, (1, 151)),
    ("erase of every index and span", sectors::every_erase, (8, 5003)),
    ("purge of every index and span", sectors::every_purge, (20, 100_003)),
    ("damaged sectors", sectors::damaged, (400, 250_007)),
    ("copies out of damaged sectors", sectors::copies, (20, 12_007)),
    ("records that are only just fit", sectors::records, (8, 30_011)),
    ("sequences", fills::sequences, (1, 1009)),
    ("every state of every entry", bytes::every_state, (0, 1)),
];
const RECORDED_OF_HISTORIES: (u64, u64) = (250, 250_007);

/// Runs every group; the histories go on until there are so many cases.
pub fn run_all(runner: &mut Runner, seed: u64, cases: u64) {
    for (number, (name, group, recorded)) in GROUPS.into_iter().enumerate() {
        runner.start_group(name, recorded);
        group(runner, &mut Random(seed ^ (number as u64) << 56));
    }
    runner.start_group("long histories", RECORDED_OF_HISTORIES);
    histories::run(runner, &mut Random(seed ^ 0xFF << 56), cases);
}
