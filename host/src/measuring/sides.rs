//! What can be measured: the kernel, the same algorithms in plain Rust, and the kernel of another revision.

use crate::binding::journal::{Head, Journaled, JournaledRun, Undone};
use crate::binding::{self, Answer, Needs, Run, Totals};

/// The kernel of the working tree.
pub struct Kernel;
/// The kernel of another revision.
#[cfg(feature = "compare")]
pub struct Before;
/// The kernel's algorithms in plain Rust.
pub struct Plain;

/// A trait of calls, and its sides: a module with the kernel's calls, one with those of another revision, which is
/// there with a feature, and one with plain Rust.
macro_rules! sides {
    (
        $(#[$comment:meta])* $sides:ident: $kernel:path, $before:path, $plain:path; $feature:literal;
        $(fn $name:ident($($argument:ident: $type:ty),*) -> $answer:ty;)*
    ) => {
        $(#[$comment])*
        pub trait $sides {
            $(fn $name($($argument: $type),*) -> $answer;)*
        }

        impl $sides for Kernel {$(
            #[inline]
            fn $name($($argument: $type),*) -> $answer {
                use $kernel as calls;
                calls::$name($($argument),*)
            }
        )*}

        #[cfg(feature = $feature)]
        impl $sides for Before {$(
            #[inline]
            fn $name($($argument: $type),*) -> $answer {
                use $before as calls;
                calls::$name($($argument),*)
            }
        )*}

        impl $sides for Plain {$(
            #[inline]
            fn $name($($argument: $type),*) -> $answer {
                use $plain as calls;
                calls::$name($($argument),*)
            }
        )*}
    };
}

sides! {
    /// The calls that rows make. Sides are types, so that the compiler knows which function each call means.
    Side: binding, binding::before, plain_calls; "compare";
    fn put(table: &mut [u16], dart: u32) -> u8;
    fn edge_join(table: &mut [u16], a: u32, b: u32) -> u8;
    fn ring_cut(table: &mut [u16], ring: &[u16]) -> u8;
    fn report(table: &[u16]) -> Totals;
    fn component_report(table: &[u16], dart: u32) -> Totals;
    fn same_edge(table: &[u16], a: u32, b: u32) -> Answer;
    fn same_face(table: &[u16], a: u32, b: u32) -> Answer;
    fn face_round(table: &[u16], dart: u32, out: &mut [u16]) -> Answer;
    fn play(table: &mut [u16], tape: &[u8]) -> Run;
    fn tape_needs(tape: &[u8]) -> Needs;
    fn write_tape(table: &[u16], out: &mut [u8]) -> Answer;
    fn screen(tape: &[u8], out: &mut [u8]) -> u8;
}

sides! {
    /// The calls on a journal that rows make. Another revision's library may lack them.
    JournalSide: binding::journal, binding::journal::before, plain_journal_calls; "compare-journal";
    fn edge_join(table: &mut [u16], journal: &mut [u16], head: Head, a: u32, b: u32) -> Journaled;
    fn play(table: &mut [u16], journal: &mut [u16], head: Head, tape: &[u8]) -> JournaledRun;
    fn go_back(table: &mut [u16], journal: &[u16], head: Head, checkpoint: u32) -> Undone;
}

/// Plain Rust with the binding's names and numbers.
mod plain_calls {
    use crate::binding::{Answer, Totals};
    use crate::plain::{self, Dimension};
    pub use crate::plain::{play, report, ring_cut, screen, tape_needs, write_tape};

    /// A dart number in 16 bits; one that does not fit becomes one that no table has.
    #[inline]
    pub fn narrow(dart: u32) -> u16 {
        dart.try_into().unwrap_or(u16::MAX)
    }

    #[inline]
    pub fn put(table: &mut [u16], dart: u32) -> u8 {
        plain::put(table, narrow(dart))
    }

    #[inline]
    pub fn edge_join(table: &mut [u16], a: u32, b: u32) -> u8 {
        plain::join(table, Dimension::Tie, narrow(a), narrow(b))
    }

    #[inline]
    pub fn component_report(table: &[u16], dart: u32) -> Totals {
        plain::piece_report(table, narrow(dart))
    }

    #[inline]
    pub fn same_edge(table: &[u16], a: u32, b: u32) -> Answer {
        plain::same_tie(table, narrow(a), narrow(b))
    }

    #[inline]
    pub fn same_face(table: &[u16], a: u32, b: u32) -> Answer {
        plain::same_gap(table, narrow(a), narrow(b))
    }

    #[inline]
    pub fn face_round(table: &[u16], dart: u32, out: &mut [u16]) -> Answer {
        plain::gap_round(table, narrow(dart), out)
    }
}

/// The same of calls on a journal.
mod plain_journal_calls {
    use super::plain_calls::narrow;
    use crate::binding::journal::{Head, Journaled};
    use crate::plain::journal::{change, Change};
    pub use crate::plain::journal::{go_back, play};
    use crate::plain::Dimension;

    #[inline]
    pub fn edge_join(table: &mut [u16], journal: &mut [u16], head: Head, a: u32, b: u32) -> Journaled {
        change(table, journal, head, Change::Join(Dimension::Tie, narrow(a), narrow(b)))
    }
}
