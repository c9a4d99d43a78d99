//! The measured calls, each written once for any side.

use crate::binding::{Answer, Needs, Run, Totals};
use crate::measuring::plans::{TwoTabs, Words};
use crate::measuring::sides::Side;
use crate::measuring::timing::{timed, Timed};
use crate::testing::second::SCREEN_ROOM;

/// The buffers that calls write to. Each side has its own.
#[derive(PartialEq)]
pub struct Room {
    words: Vec<u16>,
    bytes: Vec<u8>,
}

impl Room {
    pub fn new(capacity: usize) -> Room {
        Room { words: vec![0; capacity], bytes: vec![0; SCREEN_ROOM] }
    }
}

/// A put that is refused: the test of soundness, and nothing else that costs time.
pub fn refused_put<S: Side>(tabs: &TwoTabs, _: &mut Room) -> Timed<Words, ()> {
    timed(tabs.table, |table| assert_eq!(S::put(table, tabs.first), 5))
}

pub fn report<S: Side>(table: &Words, _: &mut Room) -> Timed<Words, Totals> {
    timed(table, |table| S::report(table))
}

pub fn component_report<S: Side>(tabs: &TwoTabs, _: &mut Room) -> Timed<Words, Totals> {
    timed(tabs.table, |table| S::component_report(table, tabs.middle))
}

/// Two tabs of one tie. Only the yes is compared with the other side's: libraries from before the distance count 0.
pub fn same_edge<S: Side>(tabs: &TwoTabs, _: &mut Room) -> Timed<Words, bool> {
    timed(tabs.table, |table| S::same_edge(table, tabs.first, tabs.middle).yes)
}

pub fn same_face<S: Side>(tabs: &TwoTabs, _: &mut Room) -> Timed<Words, bool> {
    timed(tabs.table, |table| S::same_face(table, tabs.first, tabs.middle).yes)
}

pub fn face_round<S: Side>(table: &Words, room: &mut Room) -> Timed<Words, Answer> {
    timed(table, |table| S::face_round(table, 1, &mut room.words))
}

/// A tape, played on an empty table.
pub fn play<S: Side>((tape, empty): &(&Vec<u8>, &Words), _: &mut Room) -> Timed<Words, Run> {
    timed(*empty, |table| {
        let run = S::play(table, tape);
        assert_eq!(run.number, 0);
        run
    })
}

pub fn tape_needs<S: Side>(tape: &Vec<u8>, _: &mut Room) -> Timed<Vec<u8>, Needs> {
    timed(tape, |tape| S::tape_needs(tape))
}

pub fn write_tape<S: Side>(table: &Words, room: &mut Room) -> Timed<Words, Answer> {
    timed(table, |table| {
        let answer = S::write_tape(table, &mut room.bytes);
        assert_eq!(answer.number, 0);
        answer
    })
}

pub fn ring_cut<S: Side>((table, ring): &(Words, Vec<u16>), _: &mut Room) -> Timed<Words, ()> {
    timed(table, |table| assert_eq!(S::ring_cut(table, ring), 0))
}

pub fn edge_join<S: Side>(tabs: &TwoTabs, _: &mut Room) -> Timed<Words, ()> {
    timed(tabs.table, |table| assert_eq!(S::edge_join(table, tabs.first, tabs.middle), 0))
}

pub fn screen<S: Side>(tape: &Vec<u8>, room: &mut Room) -> Timed<Vec<u8>, ()> {
    timed(tape, |tape| assert_eq!(S::screen(tape, &mut room.bytes), 0))
}
