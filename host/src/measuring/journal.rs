//! The measured calls on a journal, each written once for any side, and what they are lent.

use crate::binding::journal::{Head, Journaled, JournaledRun, Undone};
use crate::measuring::calls::Room;
use crate::measuring::plans::{two_tabs, Plans, TwoTabs, Words};
use crate::measuring::sides::JournalSide;
use crate::measuring::timing::{timed, Timed};
use crate::plain;

/// Words of a journal with room for every change of a canonical tape.
const ROOM: usize = 3 * 16_384;
/// Words of a journal for a single change; a longer one would push the table out of the cache when it is copied.
const SMALL_ROOM: usize = 3 * 16;
/// The checkpoint that is gone back to, at length 0.
const START: u32 = 0;

/// A table and a journal.
type Lent = (Words, Words);

/// The head of an empty journal, with a checkpoint.
fn head_at_start() -> Head {
    let mut head = Head::empty();
    head.checkpoints[START as usize] = 0;
    head
}

/// A table and two tabs to be joined.
pub struct Join {
    lent: Lent,
    first: u32,
    middle: u32,
}

pub fn joins(plans: &Plans) -> Vec<Join> {
    let join = |TwoTabs { table, first, middle }: &TwoTabs| {
        let lent = ((*table).clone(), vec![0; SMALL_ROOM]);
        Join { lent, first: *first, middle: *middle }
    };
    two_tabs(&plans.untied).iter().map(join).collect()
}

pub fn edge_join<S: JournalSide>(join: &Join, _: &mut Room) -> Timed<Lent, Journaled> {
    timed(&join.lent, |(table, journal)| {
        let answer = S::edge_join(table, journal, head_at_start(), join.first, join.middle);
        assert_eq!(answer.number, 0);
        answer
    })
}

/// A tape, for an empty table and an empty journal.
pub struct TapeRun<'a> {
    tape: &'a [u8],
    lent: Lent,
}

pub fn runs(plans: &Plans) -> Vec<TapeRun<'_>> {
    let empty: Lent = (vec![0; 4 * plans.capacity], vec![0; ROOM]);
    plans.tapes.iter().map(|tape| TapeRun { tape, lent: empty.clone() }).collect()
}

pub fn play<S: JournalSide>(run: &TapeRun, _: &mut Room) -> Timed<Lent, JournaledRun> {
    timed(&run.lent, |(table, journal)| {
        let answer = S::play(table, journal, head_at_start(), run.tape);
        assert_eq!(answer.number, 0);
        answer
    })
}

/// What a journaled run has left.
pub struct AfterRun {
    lent: Lent,
    head: Head,
}

pub fn after_runs(plans: &Plans) -> Vec<AfterRun> {
    let played = |TapeRun { tape, lent: (mut table, mut journal) }: TapeRun| {
        let run = plain::journal::play(&mut table, &mut journal, head_at_start(), tape);
        AfterRun { lent: (table, journal), head: run.head }
    };
    runs(plans).into_iter().map(played).collect()
}

pub fn go_back<S: JournalSide>(after: &AfterRun, _: &mut Room) -> Timed<Lent, Undone> {
    timed(&after.lent, |(table, journal)| {
        let answer = S::go_back(table, journal, after.head, START);
        assert_eq!((answer.number, answer.undone), (0, after.head.length));
        answer
    })
}
