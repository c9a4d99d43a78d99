//! The second implementation of document 02, Job 5: a journal of accepted changes, with checkpoints to go back to. A
//! change is a command, and an entry is read and written as one.

use crate::binding::journal::{Head, Journaled, JournaledRun, Undone, CHECKPOINTS, UNSET};
use crate::commands::{read, Command, MAX_TAPE};
use crate::testing::needs::crossing_by_crossing;
use crate::testing::second::Plan;

/// What is lent: a table, by its plan or the refusal that it gets, and the words of a journal.
#[derive(Clone)]
pub struct Kept {
    pub plan: Result<Plan, u8>,
    pub journal: Vec<u16>,
}

// ENTRIES

/// The changes of a command, one after the other: a ring is its cuts, and a report none.
fn changes(command: &Command) -> Vec<Command> {
    crossing_by_crossing(command).into_iter().filter(|change| *change != Command::Report).collect()
}

fn opposite(change: &Command) -> Command {
    match *change {
        Command::Put(t) => Command::TakeOut(t),
        Command::TakeOut(t) => Command::Put(t),
        Command::Join(d, a, b) => Command::Cut(d, a, b),
        Command::Cut(d, a, b) => Command::Join(d, a, b),
        Command::Report | Command::Ring(_) => panic!("{change:?} is no entry"),
    }
}

/// The words of a change; 0 is the operand that it lacks.
fn entry(change: &Command) -> [u16; 3] {
    let tabs = change.tabs();
    let word = |i: usize| tabs.get(i).map_or(0, |&t| t as u16);
    [u16::from(change.byte()), word(0), word(1)]
}

/// The change of an entry, if it is one.
fn change_of(words: &[u16]) -> Option<Command> {
    let (a, b) = (words[1].into(), words[2].into());
    match words[0] {
        byte @ (1 | 2) if b == 0 => Command::new(byte as u8, &[a]),
        byte @ 3..=6 => Command::new(byte as u8, &[a, b]),
        _ => None,
    }
}

/// How many entries a journal of so many words can have.
fn most_entries(words: usize) -> u64 {
    (words as u64 / 3).min(u64::from(UNSET) - 1)
}

// HEADS

/// Whether a head fits a journal of so many words.
pub fn fits(head: &Head, words: usize) -> bool {
    let is_past = |&checkpoint: &u32| checkpoint != UNSET && checkpoint > head.length;
    u64::from(head.length) <= most_entries(words) && !head.checkpoints.iter().any(is_past)
}

/// The length of a checkpoint, if there is one.
pub fn checkpoint(head: &Head, number: u32) -> Option<u32> {
    head.checkpoints.get(number as usize).copied().filter(|&length| length != UNSET)
}

/// The head with a smaller length, and without the checkpoints past it.
fn shortened(head: &Head, length: u32) -> Head {
    let checkpoints = head.checkpoints.map(|checkpoint| if checkpoint > length { UNSET } else { checkpoint });
    Head { checkpoints, length }
}

// CALLS

impl Kept {
    /// Refusal 1, 2 or 17, or 0.
    pub fn refusal(&self, head: &Head) -> u8 {
        match self.plan {
            Err(number) => number,
            Ok(_) if !fits(head, self.journal.len()) => 17,
            Ok(_) => 0,
        }
    }

    /// The command's own refusal, on a sound table.
    pub fn own_refusal(&self, command: &Command) -> u8 {
        self.plan.as_ref().map_or(0, |plan| plan.refusal(command))
    }

    /// Whether the entries of a command fit after so many others.
    pub fn has_room(&self, length: u32, command: &Command) -> bool {
        u64::from(length) + changes(command).len() as u64 <= most_entries(self.journal.len())
    }

    /// A command on a sound table with a head that fits: its refusal, or 0.
    fn apply(&mut self, head: &mut Head, command: &Command) -> u8 {
        match self.own_refusal(command) {
            0 if !self.has_room(head.length, command) => return 18,
            0 => {}
            refusal => return refusal,
        }
        for change in changes(command) {
            let at = 3 * head.length as usize;
            self.journal.splice(at..at + 3, entry(&change));
            head.length += 1;
        }
        self.plan.as_mut().map_or(0, |plan| plan.apply(command))
    }

    /// A journaled change or ring.
    pub fn change(&mut self, mut head: Head, command: &Command) -> Journaled {
        let number = match self.refusal(&head) {
            0 => self.apply(&mut head, command),
            refusal => refusal,
        };
        Journaled { number, head }
    }

    pub fn play(&mut self, mut head: Head, tape: &[u8]) -> JournaledRun {
        let refusal = if tape.len() > MAX_TAPE { 1 } else { self.refusal(&head) };
        if refusal != 0 {
            return JournaledRun { number: refusal, accepted: 0, head };
        }
        let (mut rest, mut accepted) = (tape, 0);
        while !rest.is_empty() {
            let (number, size) = match read(rest) {
                Ok((command, size)) => (self.apply(&mut head, &command), size),
                Err(number) => (number, 0),
            };
            if number != 0 {
                return JournaledRun { number, accepted, head };
            }
            accepted += 1;
            rest = &rest[size..];
        }
        JournaledRun { number: 0, accepted, head }
    }

    pub fn set_checkpoint(&self, head: Head, number: u32) -> Journaled {
        if !fits(&head, self.journal.len()) {
            return Journaled { number: 17, head };
        }
        if number as usize >= CHECKPOINTS {
            return Journaled { number: 19, head };
        }
        let mut checkpoints = head.checkpoints;
        checkpoints[number as usize] = head.length;
        Journaled { number: 0, head: Head { checkpoints, ..head } }
    }

    /// Undoes the last of so many entries; whether that can be done.
    fn undo(&mut self, length: u32) -> bool {
        let at = 3 * (length as usize - 1);
        match (change_of(&self.journal[at..at + 3]), &mut self.plan) {
            (Some(change), Ok(plan)) => plan.apply(&opposite(&change)) == 0,
            _ => false,
        }
    }

    pub fn go_back(&mut self, head: Head, number: u32) -> Undone {
        let refusal = self.refusal(&head);
        if refusal != 0 {
            return Undone { number: refusal, undone: 0, head };
        }
        let Some(end) = checkpoint(&head, number) else {
            return Undone { number: 19, undone: 0, head };
        };
        let mut length = head.length;
        while length > end && self.undo(length) {
            length -= 1;
        }
        let number = if length > end { 17 } else { 0 };
        Undone { number, undone: head.length - length, head: shortened(&head, length) }
    }
}
