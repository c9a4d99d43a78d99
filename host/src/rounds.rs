//! The parts of a table as the kernel answers them. Where it refuses the question, a list is empty.

use crate::binding::{self, Answer};
use crate::commands::{Dimension, Tab};

fn round(ask: fn(&[u16], Tab, &mut [u16]) -> Answer, table: &[u16], tab: Tab) -> Vec<Tab> {
    let mut words = vec![0; table.len() / 4];
    let answer = ask(table, tab, &mut words);
    words.truncate(answer.count as usize);
    words.into_iter().map(Tab::from).collect()
}

/// The tie of a tab in walking order, that tab first.
pub fn tie(table: &[u16], tab: Tab) -> Vec<Tab> {
    round(binding::edge_round, table, tab)
}

pub fn cell(table: &[u16], tab: Tab) -> Vec<Tab> {
    round(binding::vertex_round, table, tab)
}

pub fn gap(table: &[u16], tab: Tab) -> Vec<Tab> {
    round(binding::face_round, table, tab)
}

/// The tie or the cell of a tab.
pub fn of(dimension: Dimension, table: &[u16], tab: Tab) -> Vec<Tab> {
    match dimension {
        Dimension::Tie => tie(table, tab),
        Dimension::Cell => cell(table, tab),
    }
}

/// How far a tab is from another round the tie or the cell that they share.
pub fn distance(dimension: Dimension, table: &[u16], from: Tab, to: Tab) -> usize {
    let answer = match dimension {
        Dimension::Tie => binding::same_edge(table, from, to),
        Dimension::Cell => binding::same_vertex(table, from, to),
    };
    answer.count as usize
}

/// The present tabs in rising order, each with the smallest tab of its piece.
pub fn pieces(table: &[u16]) -> Vec<(Tab, Tab)> {
    let mut marks = vec![0; table.len() / 4];
    binding::component_marks(table, &mut marks);
    (1..).zip(marks).filter(|&(_, least)| least != 0).map(|(tab, least)| (tab, Tab::from(least))).collect()
}
