//! A plan as input for Graphviz's `dot`. A drawing keeps no order round a cell or a tie, so the round is written on it.

pub mod nodes;

use self::nodes::{Node, Nodes, Piece};
use crate::binding;
use crate::commands::{Dimension, Tab};
use crate::words;

const HEAD: &str = r#"// Cells are ellipses, ties are boxes, and each tab is the line between its cell and its tie.
graph plan {
    graph [nodesep=0.25, ranksep=0.3, fontname="Helvetica", fontsize=12]
    node [shape=ellipse, style=filled, width=0.3, height=0.3, margin="0.06,0.04", fontname="Helvetica", fontsize=11]
    edge [fontname="Helvetica", fontsize=10]
"#;

/// How many tabs of a round stand in one line of its node.
const TABS_IN_LINE: usize = 8;

/// The hue of a piece, which depends on its smallest tab alone, so that a piece which stays keeps its colour. Steps of
/// the golden ratio keep the hues of neighbouring numbers apart.
fn hue(piece: &Piece) -> String {
    format!("{:.3}", (f64::from(piece.least) * 0.618_033_988_749_895).fract())
}

/// How many columns the pieces stand in; side by side, many small ones would make a drawing of one long row.
fn columns(pieces: usize) -> usize {
    ((2 * pieces) as f64).sqrt().ceil() as usize
}

/// A round in cycle notation, in lines of a few tabs.
fn label(round: &[Tab]) -> String {
    let line = |tabs: &[Tab]| tabs.iter().map(Tab::to_string).collect::<Vec<_>>().join(" ");
    let lines: Vec<String> = round.chunks(TABS_IN_LINE).map(line).collect();
    format!("({})", lines.join(r"\n"))
}

/// A plan whose nodes have names that start with the prefix.
struct Drawing<'a> {
    nodes: Nodes,
    prefix: &'a str,
    /// The tabs whose lines are dashed.
    dashed: &'a [Tab],
}

impl Drawing<'_> {
    fn name(&self, (dimension, least): Node) -> String {
        match dimension {
            Dimension::Tie => format!("{}tie_{least}", self.prefix),
            Dimension::Cell => format!("{}cell_{least}", self.prefix),
        }
    }

    fn node(&self, node: Node) -> String {
        let shape = if node.0 == Dimension::Tie { ", shape=box" } else { "" };
        format!("{} [label=\"{}\"{shape}]", self.name(node), label(self.nodes.round(node)))
    }

    /// From the nearer node to the farther, so that `dot` lays a piece out in levels and no line passes a level.
    fn line(&self, piece: &Piece, tab: Tab) -> String {
        let (cell, tie) = (self.nodes.cell(tab), self.nodes.tie(tab));
        let (upper, lower) = if piece.places[&cell] < piece.places[&tie] { (cell, tie) } else { (tie, cell) };
        let style = if self.dashed.contains(&tab) { ", style=dashed" } else { "" };
        format!("{} -- {} [label=\" {tab} \"{style}]", self.name(upper), self.name(lower))
    }

    fn piece(&self, piece: &Piece) -> Vec<String> {
        let hue = hue(piece);
        let mut lines = vec![
            format!("subgraph {}piece_{} {{", self.prefix, piece.least),
            format!("    node [color=\"{hue} 0.7 0.6\", fillcolor=\"{hue} 0.12 1.0\"]"),
            format!("    edge [color=\"{hue} 0.7 0.6\"]"),
        ];
        lines.extend(piece.places.keys().map(|&node| format!("    {}", self.node(node))));
        lines.extend(piece.tabs.iter().map(|&tab| format!("    {}", self.line(piece, tab))));
        lines.push("}".to_string());
        lines
    }

    /// Lines that are not seen, from each piece to the one below it in its column.
    fn stacked(&self) -> Vec<String> {
        let pieces = &self.nodes.pieces;
        let below = pieces.iter().skip(columns(pieces.len()));
        let line = |(upper, lower): (&Piece, &Piece)| {
            format!("{} -- {} [style=invis]", self.name(upper.farthest), self.name(lower.nearest))
        };
        pieces.iter().zip(below).map(line).collect()
    }
}

fn report(table: &[u16]) -> String {
    words::report(&binding::report(table))
}

fn indented(lines: impl IntoIterator<Item = String>, by: usize) -> String {
    lines.into_iter().map(|line| format!("{:by$}{line}\n", "")).collect()
}

/// The drawing of a plan.
pub fn plan(table: &[u16]) -> String {
    let drawing = Drawing { nodes: Nodes::new(table), prefix: "", dashed: &[] };
    let pieces = drawing.nodes.pieces.iter().flat_map(|piece| drawing.piece(piece));
    let body = indented(pieces.chain(drawing.stacked()), 4);
    format!("{HEAD}    label=\"\\n{}\"\n{body}}}\n", report(table))
}

/// The pieces of a cluster are written last first, since `dot` places them from right to left.
fn cluster(name: &str, table: &[u16], dashed: &[Tab]) -> String {
    let prefix = format!("{name}_");
    let drawing = Drawing { nodes: Nodes::new(table), prefix: &prefix, dashed };
    let pieces = drawing.nodes.pieces.iter().rev().flat_map(|piece| drawing.piece(piece));
    let body = indented(pieces.chain(drawing.stacked()), 8);
    let head = format!("subgraph cluster_{name} {{\n        label=\"{name} the ring\"\n        color=gray60\n");
    format!("    {head}{body}    }}\n")
}

/// The drawing of a plan before and after a ring, whose tabs have dashed lines before it.
pub fn ring(before: &[u16], after: &[u16], ring: &[Tab]) -> String {
    let clusters = cluster("before", before, ring) + &cluster("after", after, &[]);
    let first = format!(r"before the ring: {}\n", report(before));
    let second = format!("after the ring: {}", report(after));
    format!("{HEAD}    label=\"{first}\" +\n        \"{second}\"\n{clusters}}}\n")
}
