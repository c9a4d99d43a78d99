//! The culprits of random refused runs, found by the second implementation too.

use lotskadi_host::binding;
use lotskadi_host::commands::{write, Command, Dimension, Tab, MAX_CAPACITY};
use lotskadi_host::explain::culprits::{Break, Crossing, Culprits, Twice};
use lotskadi_host::explain::play;
use lotskadi_host::explain::refusals::REFUSALS;
use lotskadi_host::testing::plans::{self, Grid};
use lotskadi_host::testing::random::Random;
use lotskadi_host::testing::second::{Part, Plan};
use std::collections::BTreeMap;

/// Crossings of random ties, mostly of different ones.
fn crossings_of_ties(random: &mut Random, plan: &Plan) -> Command {
    let ties: Vec<Vec<Tab>> =
        plan.parts(Part::Tie).into_iter().map(Vec::from_iter).filter(|tie| tie.len() > 1).collect();
    let mut ring = vec![];
    if !ties.is_empty() {
        for _ in 0..1 + random.below(4) {
            let mut tie = random.one_of(&ties).clone();
            random.shuffle(&mut tie);
            ring.extend_from_slice(&tie[..2]);
        }
    }
    Command::Ring(ring)
}

fn any_plan(random: &mut Random) -> Plan {
    let capacity = 2 + random.below(20);
    match random.below(3) {
        0 => Grid::new(1 + random.below(4), 1 + random.below(4), MAX_CAPACITY).plan,
        1 => plans::one_orbit(1 + random.below(capacity), capacity, random.once_in(2)),
        _ => plans::random(random, capacity),
    }
}

/// A command that a plan refuses and a tape can hold.
fn refused_command(random: &mut Random, plan: &Plan) -> Command {
    let near = Plan { capacity: plan.tie.len() + 2, ..plan.clone() };
    loop {
        let command = match random.below(3) {
            0 => crossings_of_ties(random, plan),
            _ => plans::command(random, &near),
        };
        if command.fits_tape() && plan.refusal(&command) != 0 {
            return command;
        }
    }
}

fn part(dimension: Dimension) -> Part {
    match dimension {
        Dimension::Tie => Part::Tie,
        Dimension::Cell => Part::Cell,
    }
}

/// Each once, in order.
fn distinct(tabs: Vec<Tab>, test: impl Fn(Tab) -> bool) -> Vec<Tab> {
    let first = |i: &usize| !tabs[..*i].contains(&tabs[*i]) && test(tabs[*i]);
    (0..tabs.len()).filter(first).map(|i| tabs[i]).collect()
}

fn numbered(ring: &[Tab]) -> Vec<Crossing> {
    (0..ring.len() / 2).map(|i| Crossing { number: i + 1, first: ring[2 * i], second: ring[2 * i + 1] }).collect()
}

fn twice(plan: &Plan, ring: &[Tab], part: Part) -> Vec<Twice> {
    let crossings = numbered(ring);
    let found = |later: &Crossing| {
        let round = |earlier: &Crossing| plan.part(part, earlier.first);
        let mut before = crossings[..later.number - 1].iter();
        let earlier = *before.find(|earlier| round(earlier).contains(&later.first))?;
        Some(Twice { earlier, later: *later, round: round(&earlier) })
    };
    crossings.iter().filter_map(found).collect()
}

fn breaks(plan: &Plan, ring: &[Tab]) -> Vec<Break> {
    let crossings = numbered(ring);
    let found = |crossing: &Crossing| {
        let next = crossings[crossing.number % crossings.len()];
        let (end, start) = (plan.part(Part::Gap, crossing.second), plan.part(Part::Gap, next.first));
        (!end.contains(&next.first)).then_some(Break { crossing: *crossing, next, end, start })
    };
    crossings.iter().filter_map(found).collect()
}

/// What broke the rule, by the second implementation.
fn expected(plan: &Plan, command: &Command, number: u8) -> Culprits {
    let tie = |tab: Tab| plan.part(Part::Tie, tab);
    match (number, command) {
        (3, _) => Culprits::OffTable(distinct(command.tabs(), |tab| !(1..=4096).contains(&tab))),
        (4, _) => Culprits::Absent(distinct(command.tabs(), |tab| !plan.is_present(tab))),
        (5, Command::Put(t)) | (6, Command::TakeOut(t)) => {
            Culprits::Hanging { tie: tie(*t), cell: plan.part(Part::Cell, *t) }
        }
        (7, Command::Join(d, a, b)) => {
            let distance = plan.distance(*d, *a, *b).expect("one tie or cell");
            Culprits::Together { dimension: *d, round: plan.part(part(*d), *a), other: *b, distance }
        }
        (8, Command::Cut(d, a, b)) => {
            Culprits::Apart { dimension: *d, first: plan.part(part(*d), *a), second: plan.part(part(*d), *b) }
        }
        (8, Command::Ring(ring)) => {
            let apart = numbered(ring).into_iter().filter(|c| !tie(c.first).contains(&c.second));
            Culprits::CrossingsApart(apart.map(|c| (c, tie(c.first), tie(c.second))).collect())
        }
        (9, Command::Cut(_, a, _)) => Culprits::SameTab(*a),
        (9, Command::Ring(ring)) => {
            Culprits::CrossingsSame(numbered(ring).into_iter().filter(|c| c.first == c.second).collect())
        }
        (10, Command::Ring(_)) => Culprits::NoCrossings,
        (11, Command::Ring(ring)) => Culprits::TieTwice(twice(plan, ring, Part::Tie)),
        (12, Command::Ring(ring)) => Culprits::GapTwice(twice(plan, ring, Part::Gap)),
        (13, Command::Ring(ring)) => Culprits::Broken(breaks(plan, ring)),
        _ => panic!("refusal {number} of {command:?}"),
    }
}

/// The run is refused at the command behind the plan's tape, with the culprits given.
fn check(plan: &Plan, rest: &[u8], number: u8, command: Option<Command>, culprits: Culprits) {
    let start = plan.tape();
    let tape = [&start[..], rest].concat();
    let played = play(&tape);
    let run = binding::play(&mut vec![0; 4 * MAX_CAPACITY], &tape);
    let refused = played.refused.as_ref().unwrap_or_else(|| panic!("{tape:?} is refused"));
    assert_eq!((refused.number, played.accepted), (run.number, run.accepted as usize), "the kernel's answer");
    assert_eq!(refused.number, number, "{command:?} on {plan:?}");
    assert_eq!((refused.before, refused.start), (played.accepted, start.len()));
    assert_eq!(refused.command, command);
    assert_eq!(refused.culprits, culprits, "{command:?} on {plan:?}");
    assert_eq!(played.table, plan.to_words(), "the table of the accepted commands");
    let word = REFUSALS[usize::from(number) - 1].word;
    let first_line = format!("refused {number}, {word}: command {}, ", played.accepted + 1);
    assert!(played.in_words(&[]).starts_with(&first_line), "{}", played.in_words(&[]));
}

#[test]
fn culprits_are_right() {
    let mut random = Random::new(4);
    let mut met: BTreeMap<(u8, u8), u32> = BTreeMap::new();
    for _ in 0..10_000 {
        let plan = Plan { capacity: MAX_CAPACITY, ..any_plan(&mut random) };
        let command = refused_command(&mut random, &plan);
        let number = plan.refusal(&command);
        let mut rest = write(&command);
        rest.extend((0..random.below(4)).map(|_| random.next() as u8));
        *met.entry((number, command.byte())).or_default() += 1;
        let culprits = expected(&plan, &command, number);
        check(&plan, &rest, number, Some(command), culprits);
    }
    let of_two_tabs = [3, 4, 5, 6].into_iter().flat_map(|byte| [(3, byte), (4, byte)]);
    let of_one_tab = [(3, 1), (3, 2), (4, 2), (5, 1), (6, 2)];
    let of_parts = [(7, 3), (7, 5), (8, 4), (8, 6), (9, 4), (9, 6)];
    let of_rings = [3, 4, 8, 9, 10, 11, 12, 13].map(|number| (number, 8));
    for kind in of_two_tabs.chain(of_one_tab).chain(of_parts).chain(of_rings) {
        assert!(met.get(&kind).is_some_and(|&times| times >= 10), "{kind:?} in {met:?}");
    }
}

#[test]
fn torn_and_unknown_commands() {
    let mut random = Random::new(5);
    for _ in 0..2000 {
        let plan = Plan { capacity: MAX_CAPACITY, ..any_plan(&mut random) };
        let unknown = *random.one_of(&[0, 9, 10, 128, 255]);
        check(&plan, &[unknown, 1, 0], 15, None, Culprits::Unknown(unknown));
        let command = plans::command(&mut random, &plan);
        if command.fits_tape() && command != Command::Report {
            let bytes = write(&command);
            let found = 1 + random.below(bytes.len() - 1);
            let counted = matches!(command, Command::Ring(_)) && found > 1;
            let crossings = counted.then(|| bytes[1]);
            let size = if bytes[0] == 8 && !counted { 2 } else { bytes.len() };
            let culprits = Culprits::Torn { byte: bytes[0], crossings, size, found };
            check(&plan, &bytes[..found], 16, None, culprits);
        }
    }
}
