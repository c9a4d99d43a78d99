//! The kernel beside the same algorithms in plain Rust: both in turn in one process, a rotation of plans, medians of
//! several passes. How fast code runs also depends on where it and its data lie in memory, so each pass is a process of
//! its own, started at other addresses.
//!
//!     benchmark [--rounds N]

use lotskadi_host::measuring::plans::Plans;
use lotskadi_host::measuring::rows::{journal_rows, rows, Row};
use lotskadi_host::measuring::sides::{Kernel, Plain};
use lotskadi_host::testing::random::Random;
use std::process::{Command, Stdio};

/// How often all rows are measured.
const PASSES: usize = 9;

fn growth(rows: &[&Row], time: impl Fn(&Row) -> f64) -> String {
    let factors: Vec<String> = rows.windows(2).map(|w| format!("{:.2}", time(w[1]) / time(w[0]))).collect();
    factors.join(" ")
}

/// All rows once, on plans of one capacity.
fn measured(random: &mut Random, capacity: usize, rounds: usize) -> Vec<Row> {
    let plans = Plans::new(random, capacity);
    let mut all = rows::<Kernel, Plain>(&plans, rounds);
    all.extend(journal_rows::<Kernel, Plain>(&plans, rounds));
    all
}

/// What a journal costs: a row's time by that of another.
fn print_ratios(rows: &[&Row]) {
    let row = |name: &str| rows.iter().find(|row| row.name == name).expect("a row");
    println!("ratios of rows:");
    for (first, second) in [
        ("one journaled join", "one join"),
        ("journaled run, a canonical tape", "play, a canonical tape"),
        ("going back over it", "journaled run, a canonical tape"),
    ] {
        let (over, under) = (row(first), row(second));
        let name = format!("{first} / {second}");
        println!("{name:68} {:6.2} {:6.2}", over.ours / under.ours, over.theirs / under.theirs);
    }
}

const SIZES: [usize; 4] = [512, 1024, 2048, 4096];

/// One pass, in the process that it is started for: all sizes in turn, so that a machine that slows down for a while
/// slows them all. A line for each row: the number of tabs, microseconds of both sides, and the row's name.
fn pass(seed: u64, rounds: usize) {
    let mut random = Random::new(seed);
    for capacity in SIZES {
        for row in measured(&mut random, capacity, rounds) {
            println!("{capacity}\t{}\t{}\t{}", row.ours, row.theirs, row.name);
        }
    }
}

/// A time of one pass.
struct Time {
    capacity: usize,
    row: Row,
}

fn read_time(line: &str) -> Option<Time> {
    let mut parts = line.splitn(4, '\t');
    let mut part = || parts.next();
    let (capacity, ours, theirs) = (part()?.parse().ok()?, part()?.parse().ok()?, part()?.parse().ok()?);
    Some(Time { capacity, row: Row { name: part()?.to_string(), ours, theirs } })
}

/// The times of one pass, by a process of its own.
fn times_of_pass(seed: usize, rounds: usize) -> Vec<Time> {
    let program = std::env::current_exe().expect("the program's own path");
    let arguments = ["--pass".to_string(), seed.to_string(), "--rounds".to_string(), rounds.to_string()];
    let output = Command::new(program).args(arguments).stderr(Stdio::inherit()).output().expect("a pass");
    assert!(output.status.success(), "a pass failed");
    let text = String::from_utf8(output.stdout).expect("lines of text");
    text.lines().map(|line| read_time(line).expect("a row")).collect()
}

/// Of each size and row the shortest times over all passes.
fn best_times(rounds: usize) -> Vec<Time> {
    let mut best = times_of_pass(1, rounds);
    for seed in 2..=PASSES {
        for (time, again) in best.iter_mut().zip(&times_of_pass(seed, rounds)) {
            time.row.keep_best(&again.row);
        }
    }
    best
}

fn main() {
    let arguments: Vec<String> = std::env::args().collect();
    let option = |name: &str| {
        let at = arguments.iter().position(|a| a == name)?;
        Some(arguments[at + 1].parse().expect("a number"))
    };
    if let Some(seed) = option("--pass") {
        return pass(seed as u64, option("--rounds").expect("rounds"));
    }
    let rounds = option("--rounds").unwrap_or(3600) / PASSES;
    let best = best_times(rounds);
    let rows = |capacity: usize| best.iter().filter(move |time| time.capacity == capacity).map(|time| &time.row);
    let largest: Vec<&Row> = rows(SIZES[3]).collect();
    println!("4,096 tabs, in microseconds, the best of {PASSES} medians of {rounds} calls:");
    println!("{:31} {:>8} {:>8} {:>6}", "", "kernel", "Rust", "ratio");
    for row in &largest {
        println!("{:31} {:8.2} {:8.2} {:6.2}", row.name, row.ours, row.theirs, row.ours / row.theirs);
    }
    print_ratios(&largest);
    println!("growth for each doubling, 512 to 4,096 tabs:");
    println!("{:31} {:>14}   {:>14}", "", "kernel", "Rust");
    for row in &largest {
        let times: Vec<_> = SIZES.iter().filter_map(|&n| rows(n).find(|r| r.name == row.name)).collect();
        if times.len() == SIZES.len() {
            println!("{:31} {}   {}", row.name, growth(&times, |r| r.ours), growth(&times, |r| r.theirs));
        }
    }
}
