//! Differential tests of the kernel, through its C face, against the second implementation.
//!
//!     differential [--seconds N] [--seed S]
//!
//! For as long as it is given (20 seconds), with a seed (1): random and structured plans, tapes and journals, whole and
//! damaged. It ends with how often each refusal was met, and fails where one was never met.

mod journal;

use lotskadi_host::binding::Totals;
use lotskadi_host::commands::{Command, Dimension, Tab, MAX_CAPACITY, MAX_TAPE};
use lotskadi_host::testing::compare::{screen, tape_needs, Lent, Met};
use lotskadi_host::testing::random::Random;
use lotskadi_host::testing::second::{Part, Plan, SCREEN_ROOM};
use lotskadi_host::testing::{plans, tapes};
use std::time::{Duration, Instant};

const PARTS: [Part; 4] = [Part::Tie, Part::Cell, Part::Gap, Part::Piece];

/// Lengths around one that matters.
fn around(random: &mut Random, length: usize) -> usize {
    match random.below(5) {
        0 => length.saturating_sub(1),
        1 => length + 1,
        2 => 0,
        3 => random.below(length + 8),
        _ => length,
    }
}

fn plan(random: &mut Random) -> Plan {
    let capacity = *random.one_of(&[0, 1, 2, 3, 4, 7, 12, 20, 40, 90]);
    match random.below(10) {
        0..=4 => plans::random(random, capacity),
        5..=8 => {
            let (width, height) = (1 + random.below(6), 1 + random.below(6));
            plans::Grid::new(width, height, capacity).plan
        }
        _ if capacity == 0 => Plan::empty(0),
        _ => plans::one_orbit(1 + random.below(capacity), capacity, random.once_in(2)),
    }
}

/// The round of a tab, into a buffer of a length around the round's.
fn round(random: &mut Random, met: &mut Met, lent: &Lent, part: Part, tab: Tab) {
    let plan = lent.plan();
    let length = if plan.is_present(tab) { plan.part(part, tab).len() } else { 1 };
    let room = around(random, length);
    lent.round(met, part, tab, room);
}

/// Every question about some tabs, with buffers of lengths around the answer's.
fn questions(random: &mut Random, met: &mut Met, lent: &Lent) {
    let plan = lent.plan();
    let some: Vec<Tab> = plan.tie.keys().copied().chain([0, 1, plan.capacity as Tab + 1, 65_537]).collect();
    for _ in 0..4 {
        let (a, b) = (*random.one_of(&some), *random.one_of(&some));
        lent.same(met, *random.one_of(&PARTS), a, b);
        let part = *random.one_of(&PARTS[..3]);
        round(random, met, lent, part, a);
        lent.component_report(met, b);
    }
    lent.report(met);
    lent.component_reports(met);
    let room = around(random, plan.capacity);
    lent.marks(met, room);
    let room = around(random, plan.tape().len());
    lent.write_tape(met, room);
}

fn commands(random: &mut Random, met: &mut Met) {
    let mut lent = Lent::of(&plan(random));
    for _ in 0..12 {
        let command = plans::command(random, &lent.plan());
        lent.command(met, &command);
    }
    questions(random, met, &lent);
}

/// A table that someone has written into, or of a length that is none.
fn damaged_table(random: &mut Random, met: &mut Met) {
    let plan = plan(random);
    let mut words = plan.to_words();
    match random.below(4) {
        0 => words.extend((0..1 + random.below(3)).map(|_| 0)),
        1 => words.truncate(words.len().saturating_sub(1 + random.below(3))),
        _ if words.is_empty() => words.push(7),
        _ => {
            for _ in 0..1 + random.below(3) {
                let (at, other) = (random.below(words.len()), random.below(plan.capacity + 2) as u16);
                words[at] = *random.one_of(&[0, 1, words[at] ^ 1, other, 65_535]);
            }
        }
    }
    let mut lent = Lent::new(&words);
    for _ in 0..4 {
        let command = plans::command(random, &plan);
        lent.command(met, &command);
    }
    lent.play(met, &plan.tape());
    questions(random, met, &lent);
}

fn tapes(random: &mut Random, met: &mut Met) {
    let capacity = *random.one_of(&[0, 1, 3, 8, 20]);
    let mut bytes = tapes::random(random, capacity);
    tapes::damage(random, &mut bytes);
    let mut lent = Lent::of(&Plan::empty(capacity));
    lent.play(met, &bytes);
    tape_needs(met, &bytes, capacity);
    // what was written plays back
    let written = lent.plan().tape();
    let mut again = Lent::of(&Plan::empty(capacity));
    assert_eq!(again.play(met, &written).number, 0, "a canonical tape");
    tape_needs(met, &written, capacity);
    assert_eq!(&again.words[..], &lent.words[..], "a canonical tape builds its table");
    if random.once_in(4) {
        let room = match random.below(3) {
            0 => around(random, SCREEN_ROOM),
            _ => SCREEN_ROOM,
        };
        screen(met, &bytes, room);
    }
}

/// A ring round a rectangle of cells in a grid: it parts the grid in two, and the plan stays flat.
fn rings(random: &mut Random, met: &mut Met) {
    let (width, height) = match random.below(40) {
        0 => (300, 3),
        1 => (20, 20),
        _ => (2 + random.below(9), 2 + random.below(9)),
    };
    let grid = plans::Grid::new(width, height, MAX_CAPACITY);
    let (left, top) = (random.below(width), random.below(height));
    let (right, bottom) = (left + random.below(width - left), top + random.below(height - top));
    // a path that meets two opposite sides would pass the gap outside twice
    if right - left + 1 == width || bottom - top + 1 == height {
        return;
    }
    let ring = grid.ring((left, top), (right, bottom));
    let mut lent = Lent::of(&grid.plan);
    let before = grid.plan.report();
    assert_eq!(lent.command(met, &Command::Ring(ring.clone())), 0, "a ring in a grid of {width} by {height}");
    let after = lent.plan().report();
    assert_eq!((after.pieces, after.handles), (before.pieces + 1, 0), "a piece comes loose, and the plan stays flat");
    lent.report(met);
    lent.command(met, &Command::Ring(ring));
}

/// A ring in a flat piece beside others, with handles or not: it parts in two flat pieces, and every other piece keeps
/// its report.
fn ring_beside(random: &mut Random, met: &mut Met) {
    let grid = plans::Grid::new(2 + random.below(4), 2 + random.below(4), MAX_CAPACITY).plan;
    let Some(ring) = plans::ring(random, &grid, 40) else { return };
    let others = plans::random(random, 30);
    let plan = plans::beside(&grid, &others, MAX_CAPACITY);
    let mut lent = Lent::of(&plan);
    assert_eq!(lent.component_report(met, ring[0]).genus, 0, "a grid is flat");
    let reports = |lent: &Lent, met: &mut Met| -> Vec<Totals> {
        let behind = grid.tie.len() as Tab + 1;
        lent.plan().tie.keys().filter(|&&t| t >= behind).map(|&t| lent.component_report(met, t)).collect()
    };
    let before = reports(&lent, met);
    let tabs = grid.tie.len() as u32;
    assert_eq!(lent.command(met, &Command::Ring(ring.clone())), 0, "a ring of the grid");
    let (inner, outer) = (lent.component_report(met, ring[0]), lent.component_report(met, ring[1]));
    assert_eq!((inner.genus, outer.genus), (0, 0), "two flat pieces");
    assert_eq!(inner.darts + outer.darts, tabs, "the ring's piece parts in two");
    assert_eq!(reports(&lent, met), before, "every other piece keeps its report");
    met.rings_beside_handles += u64::from(before.iter().any(|t| t.genus > 0));
}

/// How far tabs are apart in a plan of long orbits: neighbours both ways, ends, and any two.
fn distances(random: &mut Random, met: &mut Met, lent: &Lent, capacity: usize) {
    let last = capacity as Tab;
    let any = |random: &mut Random| 1 + random.below(capacity) as Tab;
    let (a, b) = (any(random), any(random));
    for part in PARTS {
        for (from, to) in [(1, 2), (2, 1), (1, last), (last, 1), (a, a), (a, b), (b, a)] {
            lent.same(met, part, from, to);
        }
    }
}

/// What is as large as it may be, and one more.
fn full(random: &mut Random, met: &mut Met) {
    let capacity = MAX_CAPACITY;
    let plan = match random.below(4) {
        0 => plans::random(random, capacity),
        1 => plans::Grid::new(32, 33, capacity).plan,
        2 => plans::one_orbit(capacity, capacity, false),
        _ => plans::one_orbit(capacity, capacity, true),
    };
    let mut lent = Lent::of(&plan);
    lent.report(met);
    lent.write_tape(met, 53_238);
    lent.marks(met, capacity);
    lent.component_report(met, 1 + random.below(capacity) as Tab);
    distances(random, met, &lent, capacity);
    for part in &PARTS[..3] {
        let tab = 1 + random.below(capacity) as Tab;
        round(random, met, &lent, *part, tab);
    }
    for command in [
        Command::Put(capacity as Tab),
        Command::Put(capacity as Tab + 1),
        Command::Join(Dimension::Tie, 1, capacity as Tab),
        Command::Cut(Dimension::Cell, 1, capacity as Tab),
        Command::Ring(vec![1; 4096]),
        Command::Ring(vec![1; 4098]),
    ] {
        lent.command(met, &command);
    }
    Lent::new(&vec![0; 16_388]).report(met);
    Lent::of(&Plan::empty(4)).play(met, &vec![7; MAX_TAPE + random.below(2)]);
    screen(met, &vec![7; MAX_TAPE + 1], SCREEN_ROOM);
    screen(met, &plan.tape(), SCREEN_ROOM);
    // a whole tape of empty rings, and one byte more
    let empty_rings: Vec<u8> = [8, 0].repeat(MAX_TAPE / 2 + random.below(2));
    tape_needs(met, &empty_rings, 0);
}

fn report_journals(met: &Met, greatest_length_tested: bool) {
    let places = &met.journal;
    let (returns, longest) = (places.returns, places.longest_return);
    println!("{returns} returns to a checkpoint left the table as it was, the longest over {longest} entries");
    println!("refusals of journals by place, and how often each was met:");
    for (place, times) in places.each() {
        println!("  {place}: {times}");
    }
    if !greatest_length_tested {
        println!("lengths around 4,294,967,294 were left out: no address space for such a journal");
    }
}

/// Whether everything was met that should be.
fn all_met(met: &Met) -> bool {
    let plans = [met.rings, met.apart, met.with_handles, met.partly_lifted, met.rings_beside_handles, met.foretold];
    let mut counts = met.refusals.iter().chain(&plans).copied().chain(met.journal.each().map(|(_, times)| times));
    let longest = (met.longest_round, met.longest_distance) == (MAX_CAPACITY, MAX_CAPACITY - 1);
    counts.all(|times| times > 0) && longest && met.journal.returns > 0
}

fn main() {
    let arguments: Vec<String> = std::env::args().collect();
    let option = |name: &str, default: u64| match arguments.iter().position(|a| a == name) {
        Some(at) => arguments[at + 1].parse().expect("a number"),
        None => default,
    };
    let (seconds, seed) = (option("--seconds", 20), option("--seed", 1));
    let mut random = Random::new(seed);
    let mut met = Met::default();
    let end = Instant::now() + Duration::from_secs(seconds);
    let greatest_length_tested = journal::greatest_length();
    let mut turns = 0u64;
    while Instant::now() < end {
        match turns % 200 {
            0 => full(&mut random, &mut met),
            100 => journal::full(&mut random, &mut met),
            150 => journal::long_tapes(&mut met),
            n if n % 20 == 5 => rings(&mut random, &mut met),
            n if n % 20 == 15 => ring_beside(&mut random, &mut met),
            n if n % 40 == 7 => journal::short_journals(&mut random, &mut met),
            n if n % 8 == 3 => journal::returns(&mut random, &mut met),
            n if n % 8 == 7 => journal::spoilt(&mut random, &mut met),
            n if n % 4 == 1 => damaged_table(&mut random, &mut met),
            n if n % 4 == 2 => tapes(&mut random, &mut met),
            _ => commands(&mut random, &mut met),
        }
        turns += 1;
    }
    println!("seed {seed}, {seconds} s: {} calls in {turns} turns agreed", met.calls);
    println!(
        "{} rings cut, the longest of {} crossings; the longest round of {} tabs; {} runs as foretold",
        met.rings, met.longest_ring, met.longest_round, met.foretold
    );
    println!("{} questions about tabs apart; the longest distance is {} steps", met.apart, met.longest_distance);
    println!("{} reports of plans with handles, {} of plans lifted in part", met.with_handles, met.partly_lifted);
    println!("{} rings in a flat piece beside one with handles", met.rings_beside_handles);
    report_journals(&met, greatest_length_tested);
    println!("refusals (0: accepted) and how often each was met:");
    for (number, times) in met.refusals.iter().enumerate() {
        println!("  {number:2}: {times}");
    }
    assert!(all_met(&met), "something was never met");
}
