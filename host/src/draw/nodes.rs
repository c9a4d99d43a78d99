//! The cells and ties of a plan as the nodes of a graph, by the kernel's answers. Each tab is a line between its cell
//! and its tie.

use crate::commands::{Dimension, Tab};
use crate::rounds;
use std::collections::{BTreeMap, VecDeque};

/// A cell or a tie, by its smallest tab.
pub type Node = (Dimension, Tab);

/// The ties or the cells of a table: each round by its smallest tab, and for each tab the smallest of its round.
#[derive(Default)]
struct Parts {
    rounds: BTreeMap<Tab, Vec<Tab>>,
    least: BTreeMap<Tab, Tab>,
}

impl Parts {
    /// From all tabs in rising order, so that the first one met of a round is its smallest.
    fn new(table: &[u16], dimension: Dimension, tabs: impl Iterator<Item = Tab>) -> Parts {
        let mut parts = Parts::default();
        for tab in tabs {
            if !parts.least.contains_key(&tab) {
                let round = rounds::of(dimension, table, tab);
                parts.least.extend(round.iter().map(|&other| (other, tab)));
                parts.rounds.insert(tab, round);
            }
        }
        parts
    }
}

/// A piece, and its nodes by their distance from the cell of its smallest tab.
pub struct Piece {
    pub least: Tab,
    /// In rising order.
    pub tabs: Vec<Tab>,
    /// For each node how many come before it, the nearest first.
    pub places: BTreeMap<Node, usize>,
    pub nearest: Node,
    pub farthest: Node,
}

pub struct Nodes {
    ties: Parts,
    cells: Parts,
    /// By their smallest tabs, in rising order.
    pub pieces: Vec<Piece>,
}

impl Nodes {
    pub fn new(table: &[u16]) -> Nodes {
        let marks = rounds::pieces(table);
        let tabs = || marks.iter().map(|&(tab, _)| tab);
        let (ties, cells) = (Parts::new(table, Dimension::Tie, tabs()), Parts::new(table, Dimension::Cell, tabs()));
        let mut nodes = Nodes { ties, cells, pieces: vec![] };
        let mut members: BTreeMap<Tab, Vec<Tab>> = BTreeMap::new();
        for &(tab, least) in &marks {
            members.entry(least).or_default().push(tab);
        }
        nodes.pieces = members.into_iter().map(|(least, tabs)| nodes.piece(least, tabs)).collect();
        nodes
    }

    fn parts(&self, dimension: Dimension) -> &Parts {
        match dimension {
            Dimension::Tie => &self.ties,
            Dimension::Cell => &self.cells,
        }
    }

    pub fn tie(&self, tab: Tab) -> Node {
        (Dimension::Tie, self.ties.least[&tab])
    }

    pub fn cell(&self, tab: Tab) -> Node {
        (Dimension::Cell, self.cells.least[&tab])
    }

    /// The tabs of a node, from the smallest on.
    pub fn round(&self, (dimension, least): Node) -> &[Tab] {
        &self.parts(dimension).rounds[&least]
    }

    /// The node at the other end of a tab's line.
    fn across(&self, (dimension, _): Node, tab: Tab) -> Node {
        match dimension {
            Dimension::Tie => self.cell(tab),
            Dimension::Cell => self.tie(tab),
        }
    }

    fn piece(&self, least: Tab, tabs: Vec<Tab>) -> Piece {
        let nearest = self.cell(least);
        let mut farthest = nearest;
        let mut places = BTreeMap::from([(nearest, 0)]);
        let mut waiting = VecDeque::from([nearest]);
        while let Some(node) = waiting.pop_front() {
            farthest = node;
            let new = self.round(node).iter().map(|&tab| self.across(node, tab));
            for other in new {
                if !places.contains_key(&other) {
                    places.insert(other, places.len());
                    waiting.push_back(other);
                }
            }
        }
        Piece { least, tabs, places, nearest, farthest }
    }
}
