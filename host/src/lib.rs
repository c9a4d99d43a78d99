//! The kernel seen from Rust: a safe binding of its C face, what the command `tape` is made of, and what the kernel is
//! tested and measured with.

pub mod binding;
pub mod commands;
pub mod draw;
pub mod explain;
pub mod measuring;
pub mod plain;
pub mod rounds;
pub mod testing;
pub mod text;
pub mod words;
