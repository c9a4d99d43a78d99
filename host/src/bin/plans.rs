//! Document 01's plans to check that are not marked, played by the kernel and by the second implementation.

use lotskadi_host::binding::Run;
use lotskadi_host::commands::{write, Command, Dimension, Tab, MAX_CROSSINGS};
use lotskadi_host::testing::compare::{Lent, Met};
use lotskadi_host::testing::second::{Part, Plan, Report};
use std::collections::BTreeSet;

use Command::{Cut, Join, Put, Ring};
use Dimension::{Cell, Tie};

/// A plan by commands, each accepted.
fn built(met: &mut Met, capacity: usize, commands: &[Command]) -> Lent {
    let mut lent = Lent::of(&Plan::empty(capacity));
    for command in commands {
        assert_eq!(lent.command(met, command), 0, "{command:?} is accepted");
    }
    lent
}

/// The report, by the kernel and by the second implementation.
fn reports(met: &mut Met, lent: &Lent, expected: Report) {
    lent.report(met);
    assert_eq!(lent.plan().report(), expected);
}

fn square(met: &mut Met) -> Lent {
    let mut commands: Vec<Command> = (1..=4).map(Put).collect();
    commands.extend([Join(Tie, 1, 2), Join(Tie, 3, 4), Join(Cell, 1, 3), Join(Cell, 2, 4)]);
    built(met, 4, &commands)
}

/// Ties of two tabs each: 2i + 1 and 2i + 2.
fn tied_pairs(ties: Tab) -> Vec<Command> {
    let mut commands: Vec<Command> = (1..=2 * ties).map(Put).collect();
    commands.extend((0..ties).map(|i| Join(Tie, 2 * i + 1, 2 * i + 2)));
    commands
}

/// The first tabs of all pairs into one cell, and the second tabs into another. The two run in opposite rounds, so the
/// plan is flat: its gaps are 2i + 2 with 2i + 3, and the last tab with 1.
fn two_cells(ties: Tab) -> Vec<Command> {
    let first = (1..ties).rev().map(|i| Join(Cell, 1, 2 * i + 1));
    let second = (1..ties).map(|i| Join(Cell, 2, 2 * i + 2));
    first.chain(second).collect()
}

fn tape_of(commands: &[Command]) -> Vec<u8> {
    commands.iter().flat_map(write).collect()
}

/// 255 crossings fit a tape, and are accepted where they are a ring: through all ties of two cells, which it parts.
/// Count 0 is no list.
fn longest_ring_of_a_tape(met: &mut Met) {
    let ties = MAX_CROSSINGS as Tab;
    let ring = tape_of(&[Ring((1..=2 * ties).collect())]);
    let mut lent = Lent::of(&Plan::empty(2 * MAX_CROSSINGS));
    assert_eq!(lent.play(met, &tape_of(&tied_pairs(ties))).number, 0);
    // so far each tie is a piece with one gap: the list goes from piece to piece
    assert_eq!(lent.play(met, &ring).number, 13);

    assert_eq!(lent.play(met, &tape_of(&two_cells(ties))).number, 0);
    assert_eq!(lent.play(met, &[8, 0]).number, 10);
    let flat = Report { tabs: 510, ties: 255, cells: 2, gaps: 255, pieces: 1, characteristic: 2, handles: 0, lifts: 1 };
    reports(met, &lent, flat);
    assert_eq!(lent.play(met, &ring), Run { number: 0, accepted: 1 });
    reports(met, &lent, Report { ties: 510, gaps: 2, pieces: 2, characteristic: 4, lifts: 2, ..flat });
    let side = |first: Tab| BTreeSet::from_iter((first..=2 * ties).step_by(2));
    assert_eq!(lent.plan().parts(Part::Piece), BTreeSet::from([side(1), side(2)]));
}

fn main() {
    let met = &mut Met::default();

    // joined in cell and tie, a tie cut leaves one piece
    let mut both = built(met, 2, &[Put(1), Put(2), Join(Cell, 1, 2), Join(Tie, 1, 2)]);
    assert_eq!(both.command(met, &Cut(Tie, 1, 2)), 0);
    assert_eq!(both.plan().parts(Part::Piece).len(), 1);
    both.report(met);

    // lists that are no rings of the square
    for (words, refusal) in [(vec![1, 2, 1, 2], 11), (vec![1, 1], 9), (vec![1, 3], 8)] {
        assert_eq!(square(met).command(met, &Ring(words)), refusal);
    }

    // the square's tape
    let bytes = [1, 1, 0, 1, 2, 0, 1, 3, 0, 1, 4, 0, 3, 1, 0, 2, 0, 3, 3, 0, 4, 0, 5, 1, 0, 3, 0, 5, 2, 0, 4, 0];
    assert_eq!(square(met).plan().tape(), bytes);
    square(met).write_tape(met, 32);
    square(met).write_tape(met, 31);
    assert_eq!(Lent::of(&Plan::empty(4)).play(met, &bytes).accepted, 8);

    // sizes of tables
    for (words, refusal) in [(16_384, Ok(())), (16_388, Err(1)), (3, Err(1))] {
        let lent = Lent::new(&vec![0; words]);
        assert_eq!(lent.plan.as_ref().map(|_| ()).map_err(|&n| n), refusal);
        lent.report(met);
    }

    // tabs of the largest table
    let mut largest = Lent::of(&Plan::empty(4096));
    for (tab, refusal) in [(4096, 0), (4097, 3), (0, 3)] {
        assert_eq!(largest.command(met, &Put(tab)), refusal);
    }

    longest_ring_of_a_tape(met);

    println!("document 01's unmarked plans: {} calls agreed", met.calls);
}
