//! A safe binding of include/lotskadi.h, in its words. A slice is lent as a pointer and a length; two slices of one
//! call never overlap, since one of them is borrowed for writing.

/// What a report answers: a refusal and zeros, or 0 and the eight numbers.
#[repr(C)]
#[derive(Clone, Copy, PartialEq, Eq, Debug, Default)]
pub struct Totals {
    pub number: u8,
    pub darts: u32,
    pub edges: u32,
    pub vertices: u32,
    pub faces: u32,
    pub components: u32,
    pub characteristic: i32,
    pub genus: u32,
    pub lifts: u32,
}

/// What a question answers: a refusal and nothing else, or 0 and what was asked. Of `same_edge` and `same_vertex` the
/// count is the fewest steps from the first dart to the second, each to the successor; 0 where they are apart.
#[repr(C)]
#[derive(Clone, Copy, PartialEq, Eq, Debug, Default)]
pub struct Answer {
    pub number: u8,
    pub yes: bool,
    pub count: u32,
}

/// What a run answers: 0 or the refusal that stopped it, and how many commands were accepted.
#[repr(C)]
#[derive(Clone, Copy, PartialEq, Eq, Debug, Default)]
pub struct Run {
    pub number: u8,
    pub accepted: u32,
}

/// What a tape needs: a refusal and zeros, or 0 and the four numbers.
#[repr(C)]
#[derive(Clone, Copy, PartialEq, Eq, Debug, Default)]
pub struct Needs {
    pub number: u8,
    pub capacity: u32,
    pub commands: u32,
    pub peak: u32,
    pub words: u32,
}

// SAFETY, of every call below: the pointer and length of each slice come from a Rust slice, which is valid for them and
// aligned; a slice lent for writing is borrowed mutably, so it overlaps no other; the kernel keeps none of them.

/// The C functions, as the header declares them.
macro_rules! declarations {
    ($prefix:literal $(fn $name:ident($($argument:ident: $type:ty),*) -> $answer:ty;)*) => {
        extern "C" {$(
            #[link_name = concat!($prefix, stringify!($name))]
            pub fn $name($($argument: $type),*) -> $answer;
        )*}
    };
}

pub mod journal;

macro_rules! one_dart_commands {
    ($($name:ident),*) => {$(
        pub fn $name(table: &mut [u16], dart: u32) -> u8 {
            unsafe { c::$name(table.as_mut_ptr(), table.len(), dart) }
        }
    )*};
}

macro_rules! two_dart_commands {
    ($($name:ident),*) => {$(
        pub fn $name(table: &mut [u16], a: u32, b: u32) -> u8 {
            unsafe { c::$name(table.as_mut_ptr(), table.len(), a, b) }
        }
    )*};
}

macro_rules! questions {
    ($($name:ident),*) => {$(
        pub fn $name(table: &[u16], a: u32, b: u32) -> Answer {
            unsafe { c::$name(table.as_ptr(), table.len(), a, b) }
        }
    )*};
}

macro_rules! rounds {
    ($($name:ident),*) => {$(
        pub fn $name(table: &[u16], dart: u32, out: &mut [u16]) -> Answer {
            unsafe { c::$name(table.as_ptr(), table.len(), dart, out.as_mut_ptr(), out.len()) }
        }
    )*};
}

/// The calls of one library. Its symbols are the names below with a prefix.
macro_rules! library {
    ($prefix:literal) => {
        use super::{Answer, Needs, Run, Totals};

        mod c {
            use super::{Answer, Needs, Run, Totals};

            declarations! { $prefix
                fn put(table: *mut u16, words: usize, dart: u32) -> u8;
                fn take_out(table: *mut u16, words: usize, dart: u32) -> u8;
                fn edge_join(table: *mut u16, words: usize, a: u32, b: u32) -> u8;
                fn vertex_join(table: *mut u16, words: usize, a: u32, b: u32) -> u8;
                fn edge_cut(table: *mut u16, words: usize, a: u32, b: u32) -> u8;
                fn vertex_cut(table: *mut u16, words: usize, a: u32, b: u32) -> u8;
                fn ring_cut(table: *mut u16, words: usize, ring: *const u16, ring_words: usize) -> u8;
                fn report(table: *const u16, words: usize) -> Totals;
                fn component_report(table: *const u16, words: usize, dart: u32) -> Totals;
                fn same_edge(table: *const u16, words: usize, a: u32, b: u32) -> Answer;
                fn same_vertex(table: *const u16, words: usize, a: u32, b: u32) -> Answer;
                fn same_face(table: *const u16, words: usize, a: u32, b: u32) -> Answer;
                fn same_component(table: *const u16, words: usize, a: u32, b: u32) -> Answer;
                fn edge_round(table: *const u16, words: usize, dart: u32, out: *mut u16, room: usize) -> Answer;
                fn vertex_round(table: *const u16, words: usize, dart: u32, out: *mut u16, room: usize) -> Answer;
                fn face_round(table: *const u16, words: usize, dart: u32, out: *mut u16, room: usize) -> Answer;
                fn component_marks(table: *const u16, words: usize, out: *mut u16, room: usize) -> Answer;
                fn play(table: *mut u16, words: usize, tape: *const u8, bytes: usize) -> Run;
                fn tape_needs(tape: *const u8, bytes: usize) -> Needs;
                fn write_tape(table: *const u16, words: usize, out: *mut u8, room: usize) -> Answer;
                fn screen(tape: *const u8, bytes: usize, out: *mut u8, room: usize) -> u8;
            }
        }

        one_dart_commands! { put, take_out }
        two_dart_commands! { edge_join, vertex_join, edge_cut, vertex_cut }
        questions! { same_edge, same_vertex, same_face, same_component }
        rounds! { edge_round, vertex_round, face_round }

        pub fn ring_cut(table: &mut [u16], ring: &[u16]) -> u8 {
            unsafe { c::ring_cut(table.as_mut_ptr(), table.len(), ring.as_ptr(), ring.len()) }
        }

        pub fn report(table: &[u16]) -> Totals {
            unsafe { c::report(table.as_ptr(), table.len()) }
        }

        pub fn component_report(table: &[u16], dart: u32) -> Totals {
            unsafe { c::component_report(table.as_ptr(), table.len(), dart) }
        }

        pub fn component_marks(table: &[u16], out: &mut [u16]) -> Answer {
            unsafe { c::component_marks(table.as_ptr(), table.len(), out.as_mut_ptr(), out.len()) }
        }

        pub fn play(table: &mut [u16], tape: &[u8]) -> Run {
            unsafe { c::play(table.as_mut_ptr(), table.len(), tape.as_ptr(), tape.len()) }
        }

        pub fn tape_needs(tape: &[u8]) -> Needs {
            unsafe { c::tape_needs(tape.as_ptr(), tape.len()) }
        }

        pub fn write_tape(table: &[u16], out: &mut [u8]) -> Answer {
            unsafe { c::write_tape(table.as_ptr(), table.len(), out.as_mut_ptr(), out.len()) }
        }

        pub fn screen(tape: &[u8], out: &mut [u8]) -> u8 {
            unsafe { c::screen(tape.as_ptr(), tape.len(), out.as_mut_ptr(), out.len()) }
        }
    };
}

mod kernel {
    library! { "lotskadi_" }
}

pub use kernel::*;

/// The calls of another revision's library, whose symbols scripts/compare renames.
#[cfg(feature = "compare")]
pub mod before {
    library! { "before_lotskadi_" }
}
