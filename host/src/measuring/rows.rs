//! The rows of a table of times: what is called, and on which plans.

use crate::measuring::calls::{self, Room};
use crate::measuring::journal;
use crate::measuring::plans::{dipole, two_tabs, Plans};
use crate::measuring::sides::{JournalSide, Side};
use crate::measuring::timing::{medians, Timed};

/// Microseconds of one call by both sides.
pub struct Row {
    pub name: String,
    pub ours: f64,
    pub theirs: f64,
}

impl Row {
    /// Keeps the shorter time of each side.
    pub fn keep_best(&mut self, again: &Row) {
        self.ours = self.ours.min(again.ours);
        self.theirs = self.theirs.min(again.theirs);
    }
}

struct Pass {
    rounds: usize,
    our_room: Room,
    their_room: Room,
    rows: Vec<Row>,
}

impl Pass {
    fn new(capacity: usize, rounds: usize) -> Pass {
        Pass { rounds, our_room: Room::new(capacity), their_room: Room::new(capacity), rows: vec![] }
    }

    /// Adds a row, after a call by each side on each input. Answers and lent words of the two sides must be equal.
    fn row<I, L: PartialEq, A: PartialEq>(
        &mut self,
        name: &'static str,
        inputs: &[I],
        ours: impl Fn(&I, &mut Room) -> Timed<L, A>,
        theirs: impl Fn(&I, &mut Room) -> Timed<L, A>,
    ) {
        let (our_room, their_room) = (&mut self.our_room, &mut self.their_room);
        for input in inputs {
            let (our_call, their_call) = (ours(input, our_room), theirs(input, their_room));
            assert!(our_call.answer == their_call.answer, "{name}: the sides answer differently");
            assert!(our_call.left == their_call.left, "{name}: the sides change the lent words differently");
            assert!(our_room == their_room, "{name}: the sides write differently");
        }
        let our_time = |input: &I| ours(input, our_room).micros;
        let their_time = |input: &I| theirs(input, their_room).micros;
        let (ours, theirs) = medians(self.rounds, inputs, our_time, their_time);
        self.rows.push(Row { name: name.to_string(), ours, theirs });
    }
}

/// A row of a call that is written once for any side.
macro_rules! row {
    ($pass:ident, $name:expr, $inputs:expr, $($call:ident)::+) => {
        $pass.row($name, $inputs, $($call)::+::<Ours>, $($call)::+::<Theirs>)
    };
}

/// The rows of calls on a table, once. Each time is the median of as many calls as there are rounds.
pub fn rows<Ours: Side, Theirs: Side>(plans: &Plans, rounds: usize) -> Vec<Row> {
    let capacity = plans.capacity;
    let empty = vec![0; 4 * capacity];
    let tapes_and_tables: Vec<_> = plans.tapes.iter().map(|tape| (tape, &empty)).collect();
    let mut pass = Pass::new(capacity, rounds);
    row!(pass, "soundness, by a refused put", &two_tabs(&plans.scattered), calls::refused_put);
    row!(pass, "report, grid", &plans.grid, calls::report);
    row!(pass, "report, random", &plans.random, calls::report);
    row!(pass, "report, scattered grid", &plans.scattered, calls::report);
    row!(pass, "piece report, of all tabs", &two_tabs(&plans.scattered), calls::component_report);
    row!(pass, "piece report, of 64 tabs", &two_tabs(&plans.pieces), calls::component_report);
    row!(pass, "round of all tabs", &plans.one_gap, calls::face_round);
    row!(pass, "same tie, of all tabs", &two_tabs(&plans.one_gap), calls::same_edge);
    row!(pass, "same gap, of all tabs", &two_tabs(&plans.one_gap), calls::same_face);
    row!(pass, "play, a canonical tape", &tapes_and_tables, calls::play);
    row!(pass, "needs of a tape", &plans.tapes, calls::tape_needs);
    row!(pass, "write a tape", &plans.scattered, calls::write_tape);
    for (name, ties) in [("ring of 255", 255), ("ring of 2,048", 2048)] {
        if 2 * ties <= capacity {
            row!(pass, name, &[dipole(ties, capacity)], calls::ring_cut);
        }
    }
    row!(pass, "one join", &two_tabs(&plans.untied), calls::edge_join);
    row!(pass, "screen", &plans.tapes, calls::screen);
    pass.rows
}

/// The rows of calls on a journal, once.
pub fn journal_rows<Ours: JournalSide, Theirs: JournalSide>(plans: &Plans, rounds: usize) -> Vec<Row> {
    let mut pass = Pass::new(plans.capacity, rounds);
    row!(pass, "one journaled join", &journal::joins(plans), journal::edge_join);
    row!(pass, "journaled run, a canonical tape", &journal::runs(plans), journal::play);
    row!(pass, "going back over it", &journal::after_runs(plans), journal::go_back);
    pass.rows
}
