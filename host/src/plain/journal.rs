//! The calls on a journal in plain Rust. The table is judged once, and then the head; each change is judged by its own
//! rules and by the room for its entry, made, and written after the others.

use super::{
    command_size, cut_all, cut_refusal, join_refusal, number_at, put_refusal, ring_at, ring_refusal, set_all, swap,
    table_refusal, take_out_refusal, Dimension, MAX_TAPE,
};
use crate::binding::journal::{Head, Journaled, JournaledRun, Undone, UNSET};
use crate::binding::Run;
use std::slice::ChunksExactMut;

/// A change, with the operands of its entry. Everywhere it is judged, made and written in one place of the code, where
/// its kind is known: without inlining a run takes two thirds longer.
#[derive(Clone, Copy)]
pub enum Change {
    Put(u16),
    TakeOut(u16),
    Join(Dimension, u16, u16),
    Cut(Dimension, u16, u16),
}

impl Change {
    #[inline(always)]
    fn refusal(self, table: &[u16]) -> u8 {
        match self {
            Change::Put(tab) => put_refusal(table, tab),
            Change::TakeOut(tab) => take_out_refusal(table, tab),
            Change::Join(dimension, a, b) => join_refusal(table, dimension, a, b),
            Change::Cut(dimension, a, b) => cut_refusal(table, dimension, a, b),
        }
    }

    #[inline(always)]
    fn make(self, table: &mut [u16]) {
        match self {
            Change::Put(tab) => set_all(table, tab, tab),
            Change::TakeOut(tab) => set_all(table, tab, 0),
            Change::Join(dimension, a, b) | Change::Cut(dimension, a, b) => swap(table, dimension, a, b),
        }
    }

    #[inline(always)]
    fn entry(self) -> [u16; 3] {
        match self {
            Change::Put(tab) => [1, tab, 0],
            Change::TakeOut(tab) => [2, tab, 0],
            Change::Join(Dimension::Tie, a, b) => [3, a, b],
            Change::Cut(Dimension::Tie, a, b) => [4, a, b],
            Change::Join(Dimension::Cell, a, b) => [5, a, b],
            Change::Cut(Dimension::Cell, a, b) => [6, a, b],
        }
    }

    /// The change that takes back that of an entry, if it is one.
    #[inline(always)]
    fn opposite(entry: &[u16]) -> Option<Change> {
        let (a, b) = (entry[1], entry[2]);
        match entry[0] {
            1 if b == 0 => Some(Change::TakeOut(a)),
            2 if b == 0 => Some(Change::Put(a)),
            3 => Some(Change::Cut(Dimension::Tie, a, b)),
            4 => Some(Change::Join(Dimension::Tie, a, b)),
            5 => Some(Change::Cut(Dimension::Cell, a, b)),
            6 => Some(Change::Join(Dimension::Cell, a, b)),
            _ => None,
        }
    }
}

fn head_refusal(journal: &[u16], head: &Head) -> u8 {
    let is_past = |&at: &u32| at != UNSET && at > head.length;
    if head.length as usize > most_entries(journal) || head.checkpoints.iter().any(is_past) {
        17
    } else {
        0
    }
}

fn refusal(table: &[u16], journal: &[u16], head: &Head) -> u8 {
    match table_refusal(table) {
        0 => head_refusal(journal, head),
        refusal => refusal,
    }
}

fn most_entries(journal: &[u16]) -> usize {
    (journal.len() / 3).min(UNSET as usize - 1)
}

/// The places of further entries: one that is taken is no longer among them.
type Room<'a> = ChunksExactMut<'a, u16>;

fn room(journal: &mut [u16], length: u32) -> Room<'_> {
    let most = most_entries(journal);
    journal[3 * length as usize..3 * most].chunks_exact_mut(3)
}

/// How many entries there are when this room is left.
fn length(most: usize, room: &Room) -> u32 {
    (most - room.len()) as u32
}

// CHANGES

#[inline(always)]
fn change_on(table: &mut [u16], room: &mut Room, change: Change) -> u8 {
    let refusal = change.refusal(table);
    if refusal != 0 {
        return refusal;
    }
    let Some(place) = room.next() else { return 18 };
    change.make(table);
    place.copy_from_slice(&change.entry());
    0
}

fn ring_cut_on(table: &mut [u16], room: &mut Room, ring: &[u16]) -> u8 {
    match ring_refusal(table, ring) {
        0 if room.len() < ring.len() / 2 => 18,
        0 => {
            cut_all(table, ring);
            for (pair, place) in ring.chunks_exact(2).zip(room) {
                place.copy_from_slice(&[4, pair[0], pair[1]]);
            }
            0
        }
        refusal => refusal,
    }
}

/// Something on a table and the room of a journal, where neither table nor head is refused.
#[inline]
fn journaled(
    table: &mut [u16],
    journal: &mut [u16],
    mut head: Head,
    make: impl FnOnce(&mut [u16], &mut Room) -> u8,
) -> Journaled {
    let mut number = refusal(table, journal, &head);
    if number == 0 {
        let most = most_entries(journal);
        let mut room = room(journal, head.length);
        number = make(table, &mut room);
        head.length = length(most, &room);
    }
    Journaled { number, head }
}

pub fn change(table: &mut [u16], journal: &mut [u16], head: Head, change: Change) -> Journaled {
    journaled(table, journal, head, |table, room| change_on(table, room, change))
}

pub fn ring_cut(table: &mut [u16], journal: &mut [u16], head: Head, ring: &[u16]) -> Journaled {
    journaled(table, journal, head, |table, room| ring_cut_on(table, room, ring))
}

// TAPES

/// Carries out the first command of a tape: its refusal, or 0, and its bytes.
fn perform(table: &mut [u16], room: &mut Room, tape: &[u8]) -> (u8, usize) {
    let word = |i: usize| number_at(tape, i);
    match tape[0] {
        1 if tape.len() >= 3 => (change_on(table, room, Change::Put(word(1))), 3),
        2 if tape.len() >= 3 => (change_on(table, room, Change::TakeOut(word(1))), 3),
        3 if tape.len() >= 5 => (change_on(table, room, Change::Join(Dimension::Tie, word(1), word(3))), 5),
        4 if tape.len() >= 5 => (change_on(table, room, Change::Cut(Dimension::Tie, word(1), word(3))), 5),
        5 if tape.len() >= 5 => (change_on(table, room, Change::Join(Dimension::Cell, word(1), word(3))), 5),
        6 if tape.len() >= 5 => (change_on(table, room, Change::Cut(Dimension::Cell, word(1), word(3))), 5),
        7 => (0, 1),
        _ => match command_size(tape) {
            Ok(size) => (ring_cut_on(table, room, ring_at(tape, &mut [0; 510])), size),
            Err(number) => (number, 0),
        },
    }
}

fn run(table: &mut [u16], room: &mut Room, tape: &[u8]) -> Run {
    let (mut rest, mut accepted) = (tape, 0);
    while !rest.is_empty() {
        let (number, size) = perform(table, room, rest);
        if number != 0 {
            return Run { number, accepted };
        }
        accepted += 1;
        rest = &rest[size..];
    }
    Run { number: 0, accepted }
}

pub fn play(table: &mut [u16], journal: &mut [u16], head: Head, tape: &[u8]) -> JournaledRun {
    if tape.len() > MAX_TAPE {
        return JournaledRun { number: 1, accepted: 0, head };
    }
    let mut accepted = 0;
    let Journaled { number, head } = journaled(table, journal, head, |table, room| {
        let run = run(table, room, tape);
        accepted = run.accepted;
        run.number
    });
    JournaledRun { number, accepted, head }
}

// CHECKPOINTS

pub fn set_checkpoint(journal: &[u16], mut head: Head, checkpoint: u32) -> Journaled {
    let mut number = head_refusal(journal, &head);
    if number == 0 {
        match head.checkpoints.get_mut(checkpoint as usize) {
            Some(at) => *at = head.length,
            None => number = 19,
        }
    }
    Journaled { number, head }
}

#[inline]
fn undo(table: &mut [u16], entry: &[u16]) -> bool {
    match Change::opposite(entry) {
        Some(change) if change.refusal(table) == 0 => {
            change.make(table);
            true
        }
        _ => false,
    }
}

/// Undoes entries down to a length; the length that was reached.
fn undo_to(table: &mut [u16], journal: &[u16], length: u32, end: u32) -> u32 {
    let entries = journal[3 * end as usize..3 * length as usize].chunks_exact(3).rev();
    let undone = entries.take_while(|entry| undo(table, entry)).count();
    length - undone as u32
}

pub fn go_back(table: &mut [u16], journal: &[u16], mut head: Head, checkpoint: u32) -> Undone {
    let number = refusal(table, journal, &head);
    if number != 0 {
        return Undone { number, undone: 0, head };
    }
    let end = head.checkpoints.get(checkpoint as usize).copied().unwrap_or(UNSET);
    if end == UNSET {
        return Undone { number: 19, undone: 0, head };
    }
    let length = undo_to(table, journal, head.length, end);
    let undone = head.length - length;
    head.length = length;
    for at in &mut head.checkpoints {
        *at = if *at > length { UNSET } else { *at };
    }
    Undone { number: if length > end { 17 } else { 0 }, undone, head }
}
