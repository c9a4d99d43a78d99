//! What broke the rule of a refusal: the tabs, crossings or bytes that are to blame, by the kernel's answers about the
//! table that the command met.

use crate::binding;
use crate::commands::{self, Command, Dimension, Tab};
use crate::rounds;
use std::collections::btree_map::{BTreeMap, Entry};

/// A crossing of a ring; the first one has number 1.
#[derive(Clone, Copy, PartialEq, Eq, Debug)]
pub struct Crossing {
    pub number: usize,
    pub first: Tab,
    pub second: Tab,
}

/// A crossing that meets a tie, or starts in a gap, which an earlier one has met.
#[derive(Clone, PartialEq, Eq, Debug)]
pub struct Twice {
    pub earlier: Crossing,
    pub later: Crossing,
    /// The tie or gap, from the first tab of the earlier crossing on.
    pub round: Vec<Tab>,
}

/// A crossing that ends in one gap, while the next starts in another.
#[derive(Clone, PartialEq, Eq, Debug)]
pub struct Break {
    pub crossing: Crossing,
    pub next: Crossing,
    /// The gap of the crossing's second tab, from that tab on.
    pub end: Vec<Tab>,
    /// The gap of the next one's first tab, from that tab on.
    pub start: Vec<Tab>,
}

/// Whatever lies in a tie, cell or gap is told with its round, which starts with the tab that is meant.
#[derive(Clone, PartialEq, Eq, Debug)]
pub enum Culprits {
    /// 1: the tape's bytes.
    Length(usize),
    /// 3
    OffTable(Vec<Tab>),
    /// 4
    Absent(Vec<Tab>),
    /// 5 and 6: the tie and the cell of the tab.
    Hanging { tie: Vec<Tab>, cell: Vec<Tab> },
    /// 7: the tie or cell of the first tab, the second tab, and the fewest steps to the follower from one to the other.
    Together { dimension: Dimension, round: Vec<Tab>, other: Tab, distance: usize },
    /// 8 of a cut
    Apart { dimension: Dimension, first: Vec<Tab>, second: Vec<Tab> },
    /// 8 of a ring: each such crossing with the ties of its tabs.
    CrossingsApart(Vec<(Crossing, Vec<Tab>, Vec<Tab>)>),
    /// 9 of a cut
    SameTab(Tab),
    /// 9 of a ring
    CrossingsSame(Vec<Crossing>),
    /// 10, which on a tape can only be this.
    NoCrossings,
    /// 11
    TieTwice(Vec<Twice>),
    /// 12
    GapTwice(Vec<Twice>),
    /// 13
    Broken(Vec<Break>),
    /// 15
    Unknown(u8),
    /// 16: the command's byte, how many crossings it counts if it is a ring that does, the bytes that it has and those
    /// that are there.
    Torn { byte: u8, crossings: Option<u8>, size: usize, found: usize },
    /// Of refusals that no run of a tape meets.
    Nothing,
}

/// The tabs that pass a test, each once, in the order in which the command names them.
fn named(command: &Command, test: impl Fn(Tab) -> bool) -> Vec<Tab> {
    let mut found = vec![];
    for tab in command.tabs() {
        if test(tab) && !found.contains(&tab) {
            found.push(tab);
        }
    }
    found
}

fn is_off_table(table: &[u16], tab: Tab) -> bool {
    tab == 0 || tab as usize > table.len() / 4
}

fn is_absent(table: &[u16], tab: Tab) -> bool {
    is_off_table(table, tab) || table[4 * (tab as usize - 1)] == 0
}

fn crossings(ring: &[Tab]) -> Vec<Crossing> {
    (1..).zip(ring.chunks_exact(2)).map(|(number, pair)| Crossing { number, first: pair[0], second: pair[1] }).collect()
}

fn crossings_apart(table: &[u16], ring: &[Tab]) -> Culprits {
    let is_apart = |c: &Crossing| !binding::same_edge(table, c.first, c.second).yes;
    let with_ties = |c: Crossing| (c, rounds::tie(table, c.first), rounds::tie(table, c.second));
    Culprits::CrossingsApart(crossings(ring).into_iter().filter(is_apart).map(with_ties).collect())
}

fn crossings_same(ring: &[Tab]) -> Culprits {
    Culprits::CrossingsSame(crossings(ring).into_iter().filter(|c| c.first == c.second).collect())
}

/// The crossings whose first tab has a round that an earlier first tab has, each beside the earliest of these.
fn twice(ring: &[Tab], round: impl Fn(Tab) -> Vec<Tab>) -> Vec<Twice> {
    let mut earliest: BTreeMap<Option<Tab>, Crossing> = BTreeMap::new();
    let mut found = vec![];
    for later in crossings(ring) {
        match earliest.entry(round(later.first).into_iter().min()) {
            Entry::Vacant(place) => drop(place.insert(later)),
            Entry::Occupied(place) => {
                let earlier = *place.get();
                found.push(Twice { earlier, later, round: round(earlier.first) });
            }
        }
    }
    found
}

fn broken(table: &[u16], ring: &[Tab]) -> Culprits {
    let crossings = crossings(ring);
    let next = crossings.iter().cycle().skip(1);
    let breaks = crossings
        .iter()
        .zip(next)
        .filter(|(crossing, next)| !binding::same_face(table, crossing.second, next.first).yes)
        .map(|(&crossing, &next)| {
            let (end, start) = (rounds::gap(table, crossing.second), rounds::gap(table, next.first));
            Break { crossing, next, end, start }
        });
    Culprits::Broken(breaks.collect())
}

/// What broke the rule of a command's refusal, on the table that it met.
pub fn of_command(table: &[u16], command: &Command, number: u8) -> Culprits {
    match (number, command) {
        (3, _) => Culprits::OffTable(named(command, |tab| is_off_table(table, tab))),
        (4, _) => Culprits::Absent(named(command, |tab| is_absent(table, tab))),
        (5, &Command::Put(t)) | (6, &Command::TakeOut(t)) => {
            Culprits::Hanging { tie: rounds::tie(table, t), cell: rounds::cell(table, t) }
        }
        (7, &Command::Join(dimension, a, b)) => {
            let distance = rounds::distance(dimension, table, a, b);
            Culprits::Together { dimension, round: rounds::of(dimension, table, a), other: b, distance }
        }
        (8, &Command::Cut(dimension, a, b)) => {
            let (first, second) = (rounds::of(dimension, table, a), rounds::of(dimension, table, b));
            Culprits::Apart { dimension, first, second }
        }
        (8, Command::Ring(ring)) => crossings_apart(table, ring),
        (9, &Command::Cut(_, a, _)) => Culprits::SameTab(a),
        (9, Command::Ring(ring)) => crossings_same(ring),
        (10, Command::Ring(_)) => Culprits::NoCrossings,
        (11, Command::Ring(ring)) => Culprits::TieTwice(twice(ring, |tab| rounds::tie(table, tab))),
        (12, Command::Ring(ring)) => Culprits::GapTwice(twice(ring, |tab| rounds::gap(table, tab))),
        (13, Command::Ring(ring)) => broken(table, ring),
        _ => Culprits::Nothing,
    }
}

/// What broke the rule where the tape goes on with no whole command.
pub fn of_rest(rest: &[u8]) -> Culprits {
    match (rest.first(), commands::size(rest)) {
        (Some(&byte), Some(size)) => {
            let crossings = if byte == 8 { rest.get(1).copied() } else { None };
            Culprits::Torn { byte, crossings, size, found: rest.len() }
        }
        (Some(&byte), None) => Culprits::Unknown(byte),
        (None, _) => Culprits::Nothing,
    }
}
