//! The header's section JOURNALS. The names leave out `lotskadi_` and `journal_`.

pub const CHECKPOINTS: usize = 16;
/// An unset checkpoint. A length is less than this.
pub const UNSET: u32 = u32::MAX;

/// The head of a journal: the length when each checkpoint was set, or UNSET; and how many entries the journal has.
#[repr(C)]
#[derive(Clone, Copy, PartialEq, Eq, Debug)]
pub struct Head {
    pub checkpoints: [u32; CHECKPOINTS],
    pub length: u32,
}

impl Head {
    /// The head of an empty journal, with every checkpoint unset.
    pub fn empty() -> Head {
        Head { checkpoints: [UNSET; CHECKPOINTS], length: 0 }
    }
}

/// What a journaled change answers, and the setting of a checkpoint: 0 and the next head, or a refusal and the head as
/// it came.
#[repr(C)]
#[derive(Clone, Copy, PartialEq, Eq, Debug)]
pub struct Journaled {
    pub number: u8,
    pub head: Head,
}

/// What a journaled run answers: 0 or the refusal that stopped it, how many commands were accepted, and the head after
/// these.
#[repr(C)]
#[derive(Clone, Copy, PartialEq, Eq, Debug)]
pub struct JournaledRun {
    pub number: u8,
    pub accepted: u32,
    pub head: Head,
}

/// What going back answers: 0 or the refusal that stopped it, how many entries were undone, and the head after that.
#[repr(C)]
#[derive(Clone, Copy, PartialEq, Eq, Debug)]
pub struct Undone {
    pub number: u8,
    pub undone: u32,
    pub head: Head,
}

macro_rules! one_dart_changes {
    ($($name:ident),*) => {$(
        pub fn $name(table: &mut [u16], journal: &mut [u16], head: Head, dart: u32) -> Journaled {
            let (words, entries) = (table.len(), journal.len());
            unsafe { c::$name(table.as_mut_ptr(), words, journal.as_mut_ptr(), entries, head, dart) }
        }
    )*};
}

macro_rules! two_dart_changes {
    ($($name:ident),*) => {$(
        pub fn $name(table: &mut [u16], journal: &mut [u16], head: Head, a: u32, b: u32) -> Journaled {
            let (words, entries) = (table.len(), journal.len());
            unsafe { c::$name(table.as_mut_ptr(), words, journal.as_mut_ptr(), entries, head, a, b) }
        }
    )*};
}

/// The calls on a journal of one library. `Words` and `Bytes` are lent for reading, `Lent` for writing.
macro_rules! journal_library {
    ($changes:literal, $checkpoints:literal) => {
        use super::{Head, Journaled, JournaledRun, Undone};

        mod c {
            use super::{Head, Journaled, JournaledRun, Undone};

            type Lent = *mut u16;
            type Words = *const u16;
            type Bytes = *const u8;

            declarations! { $changes
                fn put(table: Lent, words: usize, journal: Lent, entries: usize, head: Head, dart: u32) -> Journaled;
                fn take_out(table: Lent, words: usize, journal: Lent, entries: usize, head: Head, dart: u32)
                    -> Journaled;
                fn edge_join(table: Lent, words: usize, journal: Lent, entries: usize, head: Head, a: u32, b: u32)
                    -> Journaled;
                fn vertex_join(table: Lent, words: usize, journal: Lent, entries: usize, head: Head, a: u32, b: u32)
                    -> Journaled;
                fn edge_cut(table: Lent, words: usize, journal: Lent, entries: usize, head: Head, a: u32, b: u32)
                    -> Journaled;
                fn vertex_cut(table: Lent, words: usize, journal: Lent, entries: usize, head: Head, a: u32, b: u32)
                    -> Journaled;
                fn ring_cut(
                    table: Lent, words: usize, journal: Lent, entries: usize, head: Head, ring: Words, links: usize
                ) -> Journaled;
                fn play(
                    table: Lent, words: usize, journal: Lent, entries: usize, head: Head, tape: Bytes, bytes: usize
                ) -> JournaledRun;
            }

            declarations! { $checkpoints
                fn set_checkpoint(journal: Words, entries: usize, head: Head, checkpoint: u32) -> Journaled;
                fn go_back(
                    table: Lent, words: usize, journal: Words, entries: usize, head: Head, checkpoint: u32
                ) -> Undone;
            }
        }

        one_dart_changes! { put, take_out }
        two_dart_changes! { edge_join, vertex_join, edge_cut, vertex_cut }

        pub fn ring_cut(table: &mut [u16], journal: &mut [u16], head: Head, ring: &[u16]) -> Journaled {
            let (words, entries) = (table.len(), journal.len());
            let (table, journal) = (table.as_mut_ptr(), journal.as_mut_ptr());
            unsafe { c::ring_cut(table, words, journal, entries, head, ring.as_ptr(), ring.len()) }
        }

        pub fn play(table: &mut [u16], journal: &mut [u16], head: Head, tape: &[u8]) -> JournaledRun {
            let (words, entries) = (table.len(), journal.len());
            let (table, journal) = (table.as_mut_ptr(), journal.as_mut_ptr());
            unsafe { c::play(table, words, journal, entries, head, tape.as_ptr(), tape.len()) }
        }

        pub fn set_checkpoint(journal: &[u16], head: Head, checkpoint: u32) -> Journaled {
            unsafe { c::set_checkpoint(journal.as_ptr(), journal.len(), head, checkpoint) }
        }

        pub fn go_back(table: &mut [u16], journal: &[u16], head: Head, checkpoint: u32) -> Undone {
            let (words, entries) = (table.len(), journal.len());
            unsafe { c::go_back(table.as_mut_ptr(), words, journal.as_ptr(), entries, head, checkpoint) }
        }
    };
}

mod kernel {
    journal_library! { "lotskadi_journal_", "lotskadi_" }
}

pub use kernel::*;

/// The calls of another revision's library, if it has them.
#[cfg(feature = "compare-journal")]
pub mod before {
    journal_library! { "before_lotskadi_journal_", "before_lotskadi_" }
}
