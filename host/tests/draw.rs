//! Drawings of random plans, read back line by line; and the square's, word by word.

use lotskadi_host::commands::{Command, Tab, MAX_CAPACITY};
use lotskadi_host::draw;
use lotskadi_host::explain::play;
use lotskadi_host::testing::plans::{self, Grid};
use lotskadi_host::testing::random::Random;
use lotskadi_host::testing::second::{Part, Plan};
use std::collections::{BTreeMap, BTreeSet};

/// What a drawing says, for all names that start with one prefix.
#[derive(Default, PartialEq, Debug)]
struct Drawn {
    /// The label and shape of each node, by its name, and the piece that it is written in.
    nodes: BTreeMap<String, (String, Tab)>,
    /// The two ends of each tab's line, and the piece that it is written in.
    lines: BTreeMap<Tab, (BTreeSet<String>, Tab)>,
    dashed: BTreeSet<Tab>,
    /// The colours of the nodes and of the lines of each piece.
    colours: BTreeMap<Tab, Vec<String>>,
}

fn between<'a>(text: &'a str, start: &str, end: &str) -> Option<&'a str> {
    text.strip_prefix(start)?.strip_suffix(end)
}

impl Drawn {
    fn node(&mut self, name: &str, attributes: &str, piece: Tab) {
        let old = self.nodes.insert(name.to_string(), (attributes.to_string(), piece));
        assert_eq!(old, None, "one node {name}");
    }

    fn line(&mut self, ends: (&str, &str), attributes: &str, piece: Tab) {
        let (label, dashed) = match attributes.strip_suffix(", style=dashed") {
            Some(label) => (label, true),
            None => (attributes, false),
        };
        let tab = between(label, "label=\" ", " \"").expect(attributes).parse().expect("a tab");
        let ends = BTreeSet::from([ends.0.to_string(), ends.1.to_string()]);
        assert_eq!(self.lines.insert(tab, (ends, piece)), None, "one line of {tab}");
        if dashed {
            self.dashed.insert(tab);
        }
    }
}

/// All that stands in the pieces of a drawing, by the prefix of their names. A line that is not known is an error.
fn read(drawing: &str) -> BTreeMap<String, Drawn> {
    let mut found: BTreeMap<String, Drawn> = BTreeMap::new();
    let (mut prefix, mut piece, mut depth) = (String::new(), None, 0);
    for line in drawing.lines().map(str::trim) {
        if let Some(name) = between(line, "subgraph ", " {") {
            depth += 1;
            if let Some((start, least)) = name.split_once("piece_") {
                (prefix, piece) = (start.to_string(), Some(least.parse::<Tab>().expect("a piece")));
            }
        } else if line == "}" {
            depth -= 1;
            piece = None;
        } else if let (Some((name, attributes)), Some(piece)) = (line.split_once(" ["), piece) {
            let drawn = found.entry(prefix.clone()).or_default();
            let attributes = attributes.strip_suffix(']').expect(line);
            match (name, name.split_once(" -- ")) {
                ("node" | "edge", _) => drawn.colours.entry(piece).or_default().push(attributes.to_string()),
                (_, Some(ends)) => drawn.line(ends, attributes, piece),
                (_, None) => drawn.node(name, attributes, piece),
            }
        } else {
            let known = ["//", "graph plan {", "graph [", "node [", "edge [", "label=", "\"after", "color="];
            let is_unseen = line.contains(" -- ") && line.ends_with(" [style=invis]");
            assert!(is_unseen || known.iter().any(|start| line.starts_with(start)), "{line}");
        }
    }
    assert_eq!(depth, -1, "each subgraph is closed, and the graph");
    found
}

fn least(plan: &Plan, part: Part, tab: Tab) -> Tab {
    *plan.part(part, tab).iter().min().expect("a tab")
}

/// The nodes that a plan's drawing has, with their labels and pieces, by the second implementation.
fn expected_nodes(plan: &Plan, prefix: &str) -> BTreeMap<String, (String, Tab)> {
    let mut nodes = BTreeMap::new();
    for (part, name, shape) in [(Part::Cell, "cell", ""), (Part::Tie, "tie", ", shape=box")] {
        for members in plan.parts(part) {
            let first = *members.first().expect("a tab");
            let round: Vec<String> = plan.part(part, first).iter().map(Tab::to_string).collect();
            let rows: Vec<String> = round.chunks(8).map(|row| row.join(" ")).collect();
            let attributes = format!("label=\"({})\"{shape}", rows.join("\\n"));
            nodes.insert(format!("{prefix}{name}_{first}"), (attributes, least(plan, Part::Piece, first)));
        }
    }
    nodes
}

fn expected_lines(plan: &Plan, prefix: &str) -> BTreeMap<Tab, (BTreeSet<String>, Tab)> {
    let line = |&tab: &Tab| {
        let cell = format!("{prefix}cell_{}", least(plan, Part::Cell, tab));
        let tie = format!("{prefix}tie_{}", least(plan, Part::Tie, tab));
        (tab, (BTreeSet::from([cell, tie]), least(plan, Part::Piece, tab)))
    };
    plan.tie.keys().map(line).collect()
}

fn check(drawn: &Drawn, plan: &Plan, prefix: &str) {
    assert_eq!(drawn.nodes, expected_nodes(plan, prefix));
    assert_eq!(drawn.lines, expected_lines(plan, prefix));
}

fn table(plan: &Plan) -> Vec<u16> {
    Plan { capacity: MAX_CAPACITY, ..plan.clone() }.to_words()
}

#[test]
fn each_tab_is_one_line_and_each_tie_and_cell_one_node() {
    let mut random = Random::new(6);
    let mut largest = 0;
    for _ in 0..1000 {
        let capacity = 1 + random.below(60);
        let plan = match random.below(4) {
            0 => Grid::new(1 + random.below(6), 1 + random.below(6), capacity).plan,
            1 => plans::one_orbit(1 + random.below(capacity), capacity, random.once_in(2)),
            _ => plans::random(&mut random, capacity),
        };
        largest = largest.max(plan.tie.len());
        let drawn = read(&draw::plan(&table(&plan))).remove("").unwrap_or_default();
        check(&drawn, &plan, "");
        assert!(drawn.dashed.is_empty());
    }
    assert!(largest >= 50, "{largest} tabs at most");
}

/// A flat plan with a ring, beside any other plan; and the plan after the ring.
fn plan_with_ring(random: &mut Random) -> Option<(Plan, Vec<Tab>, Plan)> {
    let grid = Grid::new(1 + random.below(4), 2 + random.below(4), MAX_CAPACITY).plan;
    let others = plans::random(random, 20);
    let before = plans::beside(&grid, &others, MAX_CAPACITY);
    let ring = plans::ring(random, &before, 40)?;
    let mut after = before.clone();
    assert_eq!(after.apply(&Command::Ring(ring.clone())), 0);
    Some((before, ring, after))
}

#[test]
fn before_and_after_a_ring() {
    let mut random = Random::new(7);
    let (mut rings, mut kept) = (0, 0);
    while rings < 500 {
        let Some((before, ring, after)) = plan_with_ring(&mut random) else { continue };
        let mut drawn = read(&draw::ring(&table(&before), &table(&after), &ring));
        let first = drawn.remove("before_").expect("the plan before");
        let second = drawn.remove("after_").expect("the plan after");
        assert!(drawn.is_empty());
        check(&first, &before, "before_");
        check(&second, &after, "after_");
        assert_eq!(first.dashed, ring.iter().copied().collect::<BTreeSet<Tab>>());
        assert!(second.dashed.is_empty());
        for piece in before.parts(Part::Piece) {
            let least = piece.first().expect("a tab");
            assert_eq!(first.colours[least].len(), 2, "colours of nodes and of lines");
            if piece.iter().all(|tab| !ring.contains(tab)) {
                assert_eq!(first.colours[least], second.colours[least], "the piece of {least} stays");
                kept += 1;
            }
        }
        rings += 1;
    }
    assert!(kept > 500, "{kept} pieces that stay");
}

#[test]
fn pieces_have_colours_of_their_own() {
    let singles =
        Plan { tie: (1..=100).map(|t| (t, t)).collect(), cell: (1..=100).map(|t| (t, t)).collect(), capacity: 100 };
    let drawn = read(&draw::plan(&table(&singles))).remove("").expect("a drawing");
    let colours: BTreeSet<&Vec<String>> = drawn.colours.values().collect();
    assert_eq!(colours.len(), 100);
}

#[test]
fn the_square() {
    let root = concat!(env!("CARGO_MANIFEST_DIR"), "/..");
    let tape = std::fs::read(format!("{root}/examples/square.tape")).expect("the tape");
    let picture = std::fs::read_to_string(format!("{root}/docs/pictures/square.dot")).expect("the drawing");
    let (before, after) = (play(&tape[..33]), play(&tape[..43]));
    assert_eq!(draw::ring(&before.table, &after.table, &[1, 2, 3, 4]), picture);
}

const HEAD: &str = r#"// Cells are ellipses, ties are boxes, and each tab is the line between its cell and its tie.
graph plan {
    graph [nodesep=0.25, ranksep=0.3, fontname="Helvetica", fontsize=12]
    node [shape=ellipse, style=filled, width=0.3, height=0.3, margin="0.06,0.04", fontname="Helvetica", fontsize=11]
    edge [fontname="Helvetica", fontsize=10]
"#;

#[test]
fn the_empty_plan() {
    let report = "0 tabs, 0 ties, 0 cells, 0 gaps, 0 pieces, characteristic 0, 0 handles, 0 lifts";
    assert_eq!(draw::plan(&[]), format!("{HEAD}    label=\"\\n{report}\"\n}}\n"));
    assert_eq!(draw::plan(&[0; 4 * MAX_CAPACITY]), draw::plan(&[]));
}

#[test]
fn three_single_tabs_and_a_tie() {
    let played = play(&[1, 1, 0, 1, 2, 0, 1, 3, 0, 1, 4, 0, 1, 5, 0, 3, 1, 0, 2, 0]);
    let body = r#"    label="\n5 tabs, 4 ties, 5 cells, 4 gaps, 4 pieces, characteristic 8, 0 handles, 1 lift"
    subgraph piece_1 {
        node [color="0.618 0.7 0.6", fillcolor="0.618 0.12 1.0"]
        edge [color="0.618 0.7 0.6"]
        tie_1 [label="(1 2)", shape=box]
        cell_1 [label="(1)"]
        cell_2 [label="(2)"]
        cell_1 -- tie_1 [label=" 1 "]
        tie_1 -- cell_2 [label=" 2 "]
    }
    subgraph piece_3 {
        node [color="0.854 0.7 0.6", fillcolor="0.854 0.12 1.0"]
        edge [color="0.854 0.7 0.6"]
        tie_3 [label="(3)", shape=box]
        cell_3 [label="(3)"]
        cell_3 -- tie_3 [label=" 3 "]
    }
    subgraph piece_4 {
        node [color="0.472 0.7 0.6", fillcolor="0.472 0.12 1.0"]
        edge [color="0.472 0.7 0.6"]
        tie_4 [label="(4)", shape=box]
        cell_4 [label="(4)"]
        cell_4 -- tie_4 [label=" 4 "]
    }
    subgraph piece_5 {
        node [color="0.090 0.7 0.6", fillcolor="0.090 0.12 1.0"]
        edge [color="0.090 0.7 0.6"]
        tie_5 [label="(5)", shape=box]
        cell_5 [label="(5)"]
        cell_5 -- tie_5 [label=" 5 "]
    }
    cell_2 -- cell_5 [style=invis]
}
"#;
    assert_eq!(draw::plan(&played.table), format!("{HEAD}{body}"));
}
