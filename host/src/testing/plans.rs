//! Plans to make tests of: random ones, planar grids, plans of one long orbit, and rings in them.

use crate::commands::{Command, Dimension, Tab};
use crate::testing::random::Random;
use crate::testing::second::{Map, Part, Plan};
use std::collections::{BTreeMap, BTreeSet};

/// A permutation of the tabs with cycles of at most `longest`.
fn permutation(random: &mut Random, tabs: &[Tab], longest: usize) -> Map {
    let mut order = tabs.to_vec();
    random.shuffle(&mut order);
    let mut map = Map::new();
    let mut rest = &order[..];
    while !rest.is_empty() {
        let size = 1 + random.below(longest.min(rest.len()));
        let (cycle, further) = rest.split_at(size);
        for (i, &tab) in cycle.iter().enumerate() {
            map.insert(tab, cycle[(i + 1) % size]);
        }
        rest = further;
    }
    map
}

/// Any plan: some of the numbers are tabs, and both followers are random.
pub fn random(random: &mut Random, capacity: usize) -> Plan {
    let percent = *random.one_of(&[0, 30, 70, 100]);
    let tabs: Vec<Tab> = (1..=capacity as Tab).filter(|_| random.below(100) < percent).collect();
    let longest = |random: &mut Random| *random.one_of(&[1, 2, 3, 8, 5000]);
    let (ties, cells) = (longest(random), longest(random));
    Plan { capacity, tie: permutation(random, &tabs, ties), cell: permutation(random, &tabs, cells) }
}

/// A planar grid of cells, each tied to its neighbours by ties of two tabs.
pub struct Grid {
    pub plan: Plan,
    pub width: usize,
    pub height: usize,
    /// The tab at a cell of the tie to a neighbour.
    tabs: BTreeMap<(Place, Place), Tab>,
}

/// Column and row of a cell.
pub type Place = (usize, usize);

impl Grid {
    /// As much of a grid as there are tabs for.
    pub fn new(width: usize, height: usize, capacity: usize) -> Grid {
        let mut grid = Grid { plan: Plan::empty(capacity), width, height, tabs: BTreeMap::new() };
        for y in 0..height {
            for x in 0..width {
                grid.tie((x, y), (x + 1, y));
                grid.tie((x, y), (x, y + 1));
            }
        }
        for y in 0..height {
            for x in 0..width {
                grid.close_cell((x, y));
            }
        }
        grid
    }

    fn tie(&mut self, from: Place, to: Place) {
        let (a, b) = (self.tabs.len() as Tab + 1, self.tabs.len() as Tab + 2);
        if to.0 == self.width || to.1 == self.height || b as usize > self.plan.capacity {
            return;
        }
        self.tabs.insert((from, to), a);
        self.tabs.insert((to, from), b);
        self.plan.tie.insert(a, b);
        self.plan.tie.insert(b, a);
    }

    /// The tabs of a cell follow each other in the order right, down, left, up.
    fn close_cell(&mut self, at: Place) {
        let (x, y) = at;
        let neighbours = [(x + 1, y), (x, y + 1), (x.wrapping_sub(1), y), (x, y.wrapping_sub(1))];
        let around: Vec<Tab> = neighbours.iter().filter_map(|&to| self.tabs.get(&(at, to)).copied()).collect();
        for (i, &tab) in around.iter().enumerate() {
            self.plan.cell.insert(tab, around[(i + 1) % around.len()]);
        }
    }

    /// The crossings round a rectangle of cells, given by its corners, that a torch path meets in turn.
    pub fn ring(&self, low: Place, high: Place) -> Vec<Tab> {
        let ((left, top), (right, bottom)) = (low, high);
        let mut out = vec![];
        out.extend((left..=right).map(|x| ((x, top), (x, top.wrapping_sub(1)))));
        out.extend((top..=bottom).map(|y| ((right, y), (right + 1, y))));
        out.extend((left..=right).rev().map(|x| ((x, bottom), (x, bottom + 1))));
        out.extend((top..=bottom).rev().map(|y| ((left, y), (left.wrapping_sub(1), y))));
        let pairs: Vec<(Tab, Tab)> = out
            .into_iter()
            .filter_map(|(inside, outside)| {
                Some((*self.tabs.get(&(inside, outside))?, *self.tabs.get(&(outside, inside))?))
            })
            .collect();
        // the path goes round one way with the inner tab first, and the other way with the outer one
        let inner_first: Vec<Tab> = pairs.iter().flat_map(|&(a, b)| [a, b]).collect();
        let outer_first: Vec<Tab> = pairs.iter().flat_map(|&(a, b)| [b, a]).collect();
        match self.plan.refusal(&Command::Ring(inner_first.clone())) {
            0 => inner_first,
            _ => outer_first,
        }
    }
}

/// Two plans on one table: the tabs of the second are numbered on behind those of the first.
pub fn beside(first: &Plan, second: &Plan, capacity: usize) -> Plan {
    let offset = first.tie.keys().last().copied().unwrap_or(0);
    let both = |a: &Map, b: &Map| -> Map {
        let behind = b.iter().map(|(t, next)| (t + offset, next + offset));
        a.iter().map(|(&t, &next)| (t, next)).chain(behind).collect()
    };
    let plan = Plan { capacity, tie: both(&first.tie, &second.tie), cell: both(&first.cell, &second.cell) };
    assert!(plan.tie.keys().last().is_none_or(|&t| t as usize <= capacity), "room for both");
    plan
}

/// All tabs in one tie and one cell, which goes round the same way or the other.
pub fn one_orbit(tabs: usize, capacity: usize, other_way: bool) -> Plan {
    let mut plan = Plan::empty(capacity);
    let n = tabs as Tab;
    for tab in 1..=n {
        let (next, back) = (tab % n + 1, (tab + n - 2) % n + 1);
        plan.tie.insert(tab, next);
        plan.cell.insert(tab, if other_way { back } else { next });
    }
    plan
}

/// A ring of at most `longest` crossings, if a random walk from gap to gap finds one.
pub fn ring(random: &mut Random, plan: &Plan, longest: usize) -> Option<Vec<Tab>> {
    let mut gap_of: BTreeMap<Tab, Tab> = BTreeMap::new();
    let mut gaps: BTreeMap<Tab, Vec<Tab>> = BTreeMap::new();
    for gap in plan.parts(Part::Gap) {
        let name = *gap.first()?;
        gap_of.extend(gap.iter().map(|&t| (t, name)));
        gaps.insert(name, gap.into_iter().collect());
    }
    let names: Vec<Tab> = gaps.keys().copied().collect();
    if names.is_empty() {
        return None;
    }
    let home = *random.one_of(&names);
    let (mut at, mut words) = (home, vec![]);
    let (mut met, mut ties) = (BTreeSet::new(), BTreeSet::new());
    while words.len() < 2 * longest {
        met.insert(at);
        let first = *random.one_of(&gaps[&at]);
        let tie = plan.part(Part::Tie, first);
        let name = *tie.iter().min()?;
        let others: Vec<Tab> = tie.into_iter().filter(|&t| t != first).collect();
        if others.is_empty() || !ties.insert(name) {
            return None;
        }
        let home_again = others.iter().copied().find(|t| gap_of[t] == home);
        let second = home_again.unwrap_or(*random.one_of(&others));
        words.extend([first, second]);
        at = gap_of[&second];
        if at == home {
            return Some(words);
        }
        if met.contains(&at) {
            return None;
        }
    }
    None
}

/// A command whose tabs are mostly of the plan, and whose refusals are all within reach.
pub fn command(random: &mut Random, plan: &Plan) -> Command {
    let present: Vec<Tab> = plan.tie.keys().copied().collect();
    let tab = |random: &mut Random| -> Tab {
        match random.below(12) {
            0 => random.below(plan.capacity + 3) as Tab,
            1 => *random.one_of(&[0, 65_535, 65_536, 65_537, 131_073, u32::MAX]),
            _ if present.is_empty() => random.below(plan.capacity + 1) as Tab,
            _ => *random.one_of(&present),
        }
    };
    let dimension = *random.one_of(&[Dimension::Tie, Dimension::Cell]);
    let beside = |random: &mut Random, a: Tab| match plan.is_present(a) {
        true => {
            let part = if dimension == Dimension::Tie { Part::Tie } else { Part::Cell };
            *random.one_of(&plan.part(part, a))
        }
        false => a,
    };
    match random.below(9) {
        0 | 1 => Command::Put(1 + random.below(plan.capacity + 1) as Tab),
        2 => Command::Put(tab(random)),
        3 => Command::TakeOut(tab(random)),
        4 | 5 => Command::Join(dimension, tab(random), tab(random)),
        6 => Command::Cut(dimension, tab(random), tab(random)),
        7 => {
            let a = tab(random);
            Command::Cut(dimension, a, beside(random, a))
        }
        _ => Command::Ring(crossings(random, plan)),
    }
}

/// A ring, or a list that was one before it was spoiled, or any list of tabs.
pub fn crossings(random: &mut Random, plan: &Plan) -> Vec<Tab> {
    let present: Vec<Tab> = plan.tie.keys().copied().collect();
    let found = (0..10).find_map(|_| ring(random, plan, 40));
    let mut words = match found {
        Some(words) => words,
        None => (0..random.below(7)).map(|_| 1 + random.below(plan.capacity + 1) as Tab).collect(),
    };
    match random.below(8) {
        0 if !words.is_empty() => {
            let k = random.below(words.len());
            words[k] = random.below(plan.capacity + 2) as Tab;
        }
        1 if !words.is_empty() && !present.is_empty() => {
            let k = random.below(words.len());
            words[k] = *random.one_of(&present);
        }
        2 if words.len() >= 2 => words.extend_from_within(..2),
        3 if words.len() >= 2 => words.swap(0, 1),
        4 => drop(words.pop()),
        5 if words.len() >= 2 => words[1] = words[0],
        _ => {}
    }
    words
}
