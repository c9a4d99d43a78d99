//! A second implementation of document 01, as plain as can be: a plan is two maps on a set of tabs, and every question
//! is answered from its definition by sets. It shares no code and no data structure with the kernel.

use crate::commands::{read, write, Command, Dimension, Tab, MAX_CAPACITY, MAX_TAPE};
use std::collections::{BTreeMap, BTreeSet};

/// The most words of a ring's list.
pub const MAX_RING: usize = 4096;
/// The fewest bytes of the screen's buffer.
pub const SCREEN_ROOM: usize = 53_278;

/// Followers of the tabs of a plan; the tabs are the keys.
pub type Map = BTreeMap<Tab, Tab>;

#[derive(Clone, Copy, PartialEq, Eq, Debug)]
pub enum Part {
    Tie,
    Cell,
    Gap,
    Piece,
}

/// A plan on a table with room for tabs 1 to `capacity`.
#[derive(Clone, PartialEq, Eq, Debug, Default)]
pub struct Plan {
    pub capacity: usize,
    pub tie: Map,
    pub cell: Map,
}

/// The eight numbers of a report.
#[derive(Clone, Copy, PartialEq, Eq, Debug, Default)]
pub struct Report {
    pub tabs: i64,
    pub ties: i64,
    pub cells: i64,
    pub gaps: i64,
    pub pieces: i64,
    pub characteristic: i64,
    pub handles: i64,
    pub lifts: i64,
}

/// How a run of a tape ended.
#[derive(Clone, PartialEq, Eq, Debug)]
pub struct Run {
    pub number: u8,
    pub accepted: u32,
}

fn inverse(map: &Map) -> Map {
    map.iter().map(|(&from, &to)| (to, from)).collect()
}

/// All tabs met by following from one.
fn follow(from: Tab, step: impl Fn(Tab) -> Tab) -> Vec<Tab> {
    let mut met = vec![from];
    let mut at = step(from);
    while at != from {
        met.push(at);
        at = step(at);
    }
    met
}

impl Plan {
    pub fn empty(capacity: usize) -> Plan {
        Plan { capacity, ..Plan::default() }
    }

    /// The plan that a table holds, or refusal 1 or 2.
    pub fn from_words(words: &[u16]) -> Result<Plan, u8> {
        if words.len() % 4 != 0 || words.len() > 4 * MAX_CAPACITY {
            return Err(1);
        }
        let rows: Vec<[Tab; 4]> = words.chunks(4).map(|row| [row[0], row[1], row[2], row[3]].map(Tab::from)).collect();
        let mut plan = Plan::empty(rows.len());
        let mut tie_back = Map::new();
        let mut cell_back = Map::new();
        for (tab, row) in (1..).zip(&rows) {
            if *row == [0; 4] {
                continue;
            }
            plan.tie.insert(tab, row[0]);
            tie_back.insert(tab, row[1]);
            plan.cell.insert(tab, row[2]);
            cell_back.insert(tab, row[3]);
        }
        let present: BTreeSet<Tab> = plan.tie.keys().copied().collect();
        let undone = |there: &Map, back: &Map| {
            there.iter().all(|(tab, next)| present.contains(next) && back.get(next) == Some(tab))
        };
        let sound = undone(&plan.tie, &tie_back)
            && undone(&tie_back, &plan.tie)
            && undone(&plan.cell, &cell_back)
            && undone(&cell_back, &plan.cell);
        if sound {
            Ok(plan)
        } else {
            Err(2)
        }
    }

    pub fn to_words(&self) -> Vec<u16> {
        let (tie_back, cell_back) = (inverse(&self.tie), inverse(&self.cell));
        let word = |map: &Map, tab: Tab| map.get(&tab).copied().unwrap_or(0) as u16;
        (1..=self.capacity as Tab)
            .flat_map(|tab| [word(&self.tie, tab), word(&tie_back, tab), word(&self.cell, tab), word(&cell_back, tab)])
            .collect()
    }

    fn map(&self, dimension: Dimension) -> &Map {
        match dimension {
            Dimension::Tie => &self.tie,
            Dimension::Cell => &self.cell,
        }
    }

    fn map_mut(&mut self, dimension: Dimension) -> &mut Map {
        match dimension {
            Dimension::Tie => &mut self.tie,
            Dimension::Cell => &mut self.cell,
        }
    }

    pub fn is_present(&self, tab: Tab) -> bool {
        self.tie.contains_key(&tab)
    }

    fn is_number(&self, tab: Tab) -> bool {
        1 <= tab && tab as usize <= self.capacity
    }

    // PARTS

    /// The fewest steps to the follower from one tab to another.
    pub fn distance(&self, dimension: Dimension, from: Tab, to: Tab) -> Option<usize> {
        let followers = self.map(dimension);
        let steps = std::iter::successors(Some(from), |tab| Some(followers[tab]));
        steps.take(followers.len()).position(|tab| tab == to)
    }

    /// A tie, cell or gap in walking order, or a piece in rising order.
    pub fn part(&self, part: Part, tab: Tab) -> Vec<Tab> {
        match part {
            Part::Tie => follow(tab, |t| self.tie[&t]),
            Part::Cell => follow(tab, |t| self.cell[&t]),
            Part::Gap => {
                let (tie_back, cell_back) = (inverse(&self.tie), inverse(&self.cell));
                follow(tab, |t| cell_back[&tie_back[&t]])
            }
            Part::Piece => {
                let mut reached = BTreeSet::from([tab]);
                let mut waiting = vec![tab];
                while let Some(t) = waiting.pop() {
                    for next in [self.tie[&t], self.cell[&t]] {
                        if reached.insert(next) {
                            waiting.push(next);
                        }
                    }
                }
                reached.into_iter().collect()
            }
        }
    }

    /// All parts of a kind, each as its set of tabs.
    pub fn parts(&self, part: Part) -> BTreeSet<BTreeSet<Tab>> {
        let mut found = BTreeSet::new();
        let mut seen = BTreeSet::new();
        let (tie_back, cell_back) = (inverse(&self.tie), inverse(&self.cell));
        for &tab in self.tie.keys() {
            if seen.contains(&tab) {
                continue;
            }
            let members: BTreeSet<Tab> = match part {
                Part::Gap => follow(tab, |t| cell_back[&tie_back[&t]]).into_iter().collect(),
                _ => self.part(part, tab).into_iter().collect(),
            };
            seen.extend(members.iter().copied());
            found.insert(members);
        }
        found
    }

    pub fn report(&self) -> Report {
        let count = |part| self.parts(part).len() as i64;
        let (tabs, ties, cells, gaps) = (self.tie.len() as i64, count(Part::Tie), count(Part::Cell), count(Part::Gap));
        let sets = self.parts(Part::Piece);
        let pieces = sets.len() as i64;
        let lifts = sets.iter().filter(|set| set.len() >= 2).count() as i64;
        let characteristic = cells + ties + gaps - tabs;
        assert_eq!(characteristic % 2, 0, "an odd characteristic");
        let handles = pieces - characteristic / 2;
        Report { tabs, ties, cells, gaps, pieces, characteristic, handles, lifts }
    }

    /// The plan of the tabs in one piece, and no others.
    pub fn piece_alone(&self, tab: Tab) -> Plan {
        let piece = BTreeSet::from_iter(self.part(Part::Piece, tab));
        let alone = |map: &Map| map.iter().filter(|(t, _)| piece.contains(t)).map(|(&t, &next)| (t, next)).collect();
        Plan { capacity: self.capacity, tie: alone(&self.tie), cell: alone(&self.cell) }
    }

    /// For each number the smallest tab of its piece, 0 where there is none.
    pub fn marks(&self) -> Vec<u16> {
        let mut marks = vec![0; self.capacity];
        for piece in self.parts(Part::Piece) {
            let least = *piece.first().expect("a piece has a tab");
            for tab in piece {
                marks[tab as usize - 1] = least as u16;
            }
        }
        marks
    }

    // COMMANDS

    fn presence(&self, tabs: &[Tab]) -> u8 {
        if !tabs.iter().all(|&t| self.is_number(t)) {
            3
        } else if !tabs.iter().all(|&t| self.is_present(t)) {
            4
        } else {
            0
        }
    }

    pub fn question_refusal(&self, tabs: &[Tab]) -> u8 {
        self.presence(tabs)
    }

    fn swap(&mut self, dimension: Dimension, a: Tab, b: Tab) {
        for next in self.map_mut(dimension).values_mut() {
            *next = if *next == a {
                b
            } else if *next == b {
                a
            } else {
                *next
            };
        }
    }

    fn ring_refusal(&self, words: &[Tab]) -> u8 {
        if words.is_empty() || words.len() % 2 != 0 || words.len() > MAX_RING {
            return 10;
        }
        let presence = self.presence(words);
        if presence != 0 {
            return presence;
        }
        let crossings: Vec<(Tab, Tab)> = words.chunks(2).map(|pair| (pair[0], pair[1])).collect();
        let name = |parts: &BTreeSet<BTreeSet<Tab>>| -> BTreeMap<Tab, Tab> {
            parts.iter().flat_map(|part| part.iter().map(|&t| (t, *part.first().unwrap()))).collect()
        };
        let (ties, gaps) = (name(&self.parts(Part::Tie)), name(&self.parts(Part::Gap)));
        if crossings.iter().any(|(a, b)| ties[a] != ties[b]) {
            return 8;
        }
        if crossings.iter().any(|(a, b)| a == b) {
            return 9;
        }
        if crossings.iter().map(|(a, _)| ties[a]).collect::<BTreeSet<_>>().len() < crossings.len() {
            return 11;
        }
        if crossings.iter().map(|(a, _)| gaps[a]).collect::<BTreeSet<_>>().len() < crossings.len() {
            return 12;
        }
        let next = crossings.iter().cycle().skip(1);
        if crossings.iter().zip(next).any(|((_, b), (a, _))| gaps[b] != gaps[a]) {
            return 13;
        }
        0
    }

    /// The command's refusal, or 0.
    pub fn refusal(&self, command: &Command) -> u8 {
        let together = |dimension, a, b| self.distance(dimension, a, b).is_some();
        match *command {
            Command::Put(t) if !self.is_number(t) => 3,
            Command::Put(t) if self.is_present(t) => 5,
            Command::Put(_) | Command::Report => 0,
            Command::TakeOut(t) => match self.presence(&[t]) {
                0 if self.tie[&t] != t || self.cell[&t] != t => 6,
                refusal => refusal,
            },
            Command::Join(d, a, b) => match self.presence(&[a, b]) {
                0 if together(d, a, b) => 7,
                refusal => refusal,
            },
            Command::Cut(d, a, b) => match self.presence(&[a, b]) {
                0 if !together(d, a, b) => 8,
                0 if a == b => 9,
                refusal => refusal,
            },
            Command::Ring(ref words) => self.ring_refusal(words),
        }
    }

    /// Makes the command's change where it is accepted; its refusal, or 0.
    pub fn apply(&mut self, command: &Command) -> u8 {
        let refusal = self.refusal(command);
        if refusal != 0 {
            return refusal;
        }
        match command {
            Command::Put(t) => {
                self.tie.insert(*t, *t);
                self.cell.insert(*t, *t);
            }
            Command::TakeOut(t) => {
                self.tie.remove(t);
                self.cell.remove(t);
            }
            Command::Join(d, a, b) | Command::Cut(d, a, b) => self.swap(*d, *a, *b),
            Command::Report => {}
            Command::Ring(words) => {
                for pair in words.chunks(2) {
                    self.swap(Dimension::Tie, pair[0], pair[1]);
                }
            }
        }
        0
    }

    // TAPES

    /// Plays a tape; the plan keeps what was accepted.
    pub fn play(&mut self, tape: &[u8]) -> Run {
        let mut accepted = 0;
        let mut rest = tape;
        while !rest.is_empty() {
            let (command, size) = match read(rest) {
                Ok(read) => read,
                Err(number) => return Run { number, accepted },
            };
            let number = self.apply(&command);
            if number != 0 {
                return Run { number, accepted };
            }
            accepted += 1;
            rest = &rest[size..];
        }
        Run { number: 0, accepted }
    }

    /// The canonical tape.
    pub fn tape(&self) -> Vec<u8> {
        let mut commands: Vec<Command> = self.tie.keys().map(|&t| Command::Put(t)).collect();
        for (dimension, part) in [(Dimension::Tie, Part::Tie), (Dimension::Cell, Part::Cell)] {
            let mut least: Vec<Tab> = self.parts(part).iter().map(|p| *p.first().unwrap()).collect();
            least.sort();
            for m in least {
                let further = self.part(part, m).into_iter().skip(1);
                commands.extend(further.map(|t| Command::Join(dimension, m, t)));
            }
        }
        commands.iter().flat_map(write).collect()
    }
}

/// What the screen's call returns, and its buffer afterwards.
pub fn screen(tape: &[u8], out: &[u8]) -> (u8, Vec<u8>) {
    if tape.len() > MAX_TAPE {
        return (1, out.to_vec());
    }
    if out.len() < SCREEN_ROOM {
        return (14, out.to_vec());
    }
    let mut plan = Plan::empty(MAX_CAPACITY);
    let run = plan.play(tape);
    let r = plan.report();
    let numbers = [
        i64::from(run.number),
        i64::from(run.accepted),
        r.tabs,
        r.ties,
        r.cells,
        r.gaps,
        r.pieces,
        r.characteristic,
        r.handles,
        r.lifts,
    ];
    let mut bytes: Vec<u8> = numbers.iter().flat_map(|&n| (n as i32).to_le_bytes()).collect();
    bytes.extend(plan.tape());
    bytes.extend_from_slice(&out[bytes.len()..]);
    (0, bytes)
}
