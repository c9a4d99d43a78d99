//! The kernel of the working tree beside that of another revision: one pass over the benchmark's rows with 4,096 tabs.
//! For each row a line: microseconds before, microseconds now, and the row's name, with tabulators between them. The
//! table of several passes is made by scripts/compare.
//!
//!     compare SEED

use lotskadi_host::measuring::plans::Plans;
#[cfg(feature = "compare-journal")]
use lotskadi_host::measuring::rows::journal_rows;
use lotskadi_host::measuring::rows::{rows, Row};
use lotskadi_host::measuring::sides::{Before, Kernel};
use lotskadi_host::testing::random::Random;

const ROUNDS: usize = 400;

fn print(rows: &[Row]) {
    for row in rows {
        println!("{:.4}\t{:.4}\t{}", row.theirs, row.ours, row.name);
    }
}

fn main() {
    let seed = std::env::args().nth(1).and_then(|seed| seed.parse().ok()).expect("a seed");
    let plans = Plans::new(&mut Random::new(seed), 4096);
    print(&rows::<Kernel, Before>(&plans, ROUNDS));
    // only with an older library that has these calls
    #[cfg(feature = "compare-journal")]
    print(&journal_rows::<Kernel, Before>(&plans, ROUNDS));
}
