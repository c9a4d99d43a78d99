//! A second implementation to compare the kernel with, and plans and tapes to compare them on.

pub mod compare;
pub mod guarded;
pub mod journal;
pub mod needs;
pub mod plans;
pub mod random;
pub mod second;
pub mod tapes;
