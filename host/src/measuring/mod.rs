//! Two sides measured against each other: plans, the calls on them, their times, and the rows of the benchmark, which
//! are the same for any two sides.

pub mod calls;
pub mod journal;
pub mod plans;
pub mod rows;
pub mod sides;
pub mod timing;
