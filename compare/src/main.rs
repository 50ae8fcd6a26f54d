//! Runs the page layer against the Rust that it was ported from. See README.md beside Cargo.toml.

mod bench;
mod cases;
mod check;
mod differences;
mod domain;
mod ours;
mod pages;
mod random;
mod recorded;
mod replay;
mod report;
mod shrink;

use std::process::ExitCode;

use check::{Runner, Sides};
use compare::oracle::hush_panics;
use ours::{Fault, Ours};
use recorded::Recorder;
use report::grouped;

const USAGE: &str = "\
usage: compare [--seed N] [--cases N] [--fault 1|2|3] [--record FILE]
       compare --replay FILE | --differences | --bench
  Runs both sides on the same inputs and compares all that comes back.
  --seed N       draws other inputs
  --cases N      lets the histories go on until there are so many cases
  --fault N      plants a fault in our side, which has to be found
  --record FILE  writes a sample of the Rust's answers
  --replay FILE  runs our side on such a sample
  --differences  prints what both sides do outside the domain
  --bench        prints how long both sides take";

/// What a file may have that is kept in the repository.
const MOST_RECORDED: usize = 4_000_000;

struct Options {
    seed: u64,
    cases: u64,
    fault: Option<Fault>,
    record: Option<String>,
}

fn main() -> ExitCode {
    hush_panics();
    let words: Vec<String> = std::env::args().skip(1).collect();
    let words: Vec<&str> = words.iter().map(String::as_str).collect();
    let mut passed = Ok(());
    match words[..] {
        ["--differences"] => differences::print(),
        ["--bench"] => bench::print(),
        ["--replay", path] => passed = replay(path),
        _ => passed = options(&words).and_then(compare),
    }
    let Err(message) = passed else {
        return ExitCode::SUCCESS;
    };
    eprintln!("{message}");
    ExitCode::FAILURE
}

fn options(words: &[&str]) -> Result<Options, String> {
    let mut options = Options { seed: 1, cases: 6_000_000, fault: None, record: None };
    for pair in words.chunks(2) {
        let [word, value] = pair else {
            return Err(USAGE.into());
        };
        let number = || value.parse().map_err(|_| format!("{value}: a number is expected"));
        match *word {
            "--seed" => options.seed = number()?,
            "--cases" => options.cases = number()?,
            "--fault" => options.fault = Some(value.parse()?),
            "--record" => options.record = Some(value.to_string()),
            _ => return Err(USAGE.into()),
        }
    }
    Ok(options)
}

fn compare(options: Options) -> Result<(), String> {
    let sides = Sides { ours: Ours { fault: options.fault }, ..Sides::default() };
    let recorder = options.record.as_ref().map(|_| Recorder::default());
    let mut runner = Runner { sides, report: Default::default(), recorder };
    cases::run_all(&mut runner, options.seed, options.cases);
    let Runner { mut sides, report, recorder } = runner;
    report.print_summary();
    report.print_differences(&mut sides);
    println!("{} differences", grouped(report.differences()));
    if report.differences() > 0 {
        return Err("the two sides differ".into());
    }
    match (recorder, options.record) {
        (Some(recorder), Some(path)) => write(recorder, &path),
        _ => Ok(()),
    }
}

fn write(recorder: Recorder, path: &str) -> Result<(), String> {
    let (cases, size) = recorder.write(path).map_err(|error| format!("{path}: {error}"))?;
    println!("{path}: {} cases, {} bytes", grouped(cases.into()), grouped(size as u64));
    if size > MOST_RECORDED { Err(format!("{path}: over {MOST_RECORDED} bytes")) } else { Ok(()) }
}

fn replay(path: &str) -> Result<(), String> {
    let file = std::fs::read(path).map_err(|error| format!("{path}: {error}"))?;
    let (cases, wrong) = replay::replay(&file).map_err(|message| format!("{path}: {message}"))?;
    println!("{path}: {} cases, {} answered otherwise", grouped(cases.into()), grouped(wrong.into()));
    if wrong > 0 { Err("our side differs from what is recorded".into()) } else { Ok(()) }
}
