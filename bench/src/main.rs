//! CRC-32: the proved code against the Rust's, both at -O3, in one process and on the same bytes.
//!
//! Two measures: `one after the other`, where each start is the last CRC, so that a call waits for the one before it;
//! and `side by side`, where every start is 0xFFFFFFFF, so that the processor may overlap calls.
//! A number is the median of the rounds; in each round the two take turns.
//!
//! To run it: `boundary/archive.sh target/staticlib/libboundary.a` at the root, then here `NVS_SOURCE=DIR cargo run --release`, with the folder of the Rust's sources.

use std::hint::black_box;
use std::time::Instant;

include!(concat!(env!("OUT_DIR"), "/software_crc32.rs"));

extern "C" {
    fn nvs_crc32(start: u32, data: *const u8, length: usize) -> u32;
}

#[inline(never)]
fn proved(start: u32, data: &[u8]) -> u32 {
    unsafe { nvs_crc32(start, data.as_ptr(), data.len()) }
}

#[inline(never)]
fn rust(start: u32, data: &[u8]) -> u32 {
    software_crc32(start, data)
}

const ROUNDS: usize = 501;
const SIZES: [usize; 4] = [4, 28, 256, 4000];

/// Nanoseconds a call.
fn time(crc: fn(u32, &[u8]) -> u32, data: &[u8], chained: bool) -> f64 {
    let calls = 100_000 / (data.len() + 16);
    let mut last = 0;
    let start = Instant::now();
    for _ in 0..calls {
        let from = if chained { last } else { 0xFFFF_FFFF };
        last = black_box(crc(black_box(from), black_box(data)));
    }
    start.elapsed().as_nanos() as f64 / calls as f64
}

fn median(mut times: Vec<f64>) -> f64 {
    times.sort_by(f64::total_cmp);
    times[times.len() / 2]
}

fn main() {
    let mut state = 1u32;
    let data: Vec<u8> = (0..4096)
        .map(|_| {
            state = (75 * state + 74) % 65537;
            (state / 256) as u8
        })
        .collect();
    for length in 0..=data.len() {
        let start = 0x9E37_79B9u32.wrapping_mul(length as u32);
        assert_eq!(
            proved(start, &data[..length]),
            rust(start, &data[..length]),
            "{length} bytes"
        );
    }
    for (name, chained) in [("one after the other", true), ("side by side", false)] {
        println!("{name}");
        for size in SIZES {
            let (mut ours, mut theirs) = (Vec::new(), Vec::new());
            for _ in 0..ROUNDS {
                ours.push(time(proved, &data[..size], chained));
                theirs.push(time(rust, &data[..size], chained));
            }
            let (ours, theirs) = (median(ours), median(theirs));
            println!(
                "{size:6} bytes  proved {ours:9.1} ns  Rust {theirs:9.1} ns  {:.2}x",
                theirs / ours
            );
        }
    }
}
