//! The rows of the benchmark: each row fails where the two sides differ.

use lotskadi_host::binding;
use lotskadi_host::measuring::plans::{two_tabs, Plans};
use lotskadi_host::measuring::rows::{journal_rows, rows, Row};
use lotskadi_host::measuring::sides::{Kernel, Plain};
use lotskadi_host::plain;
use lotskadi_host::testing::random::Random;

fn measured(capacity: usize) -> Vec<Row> {
    rows::<Kernel, Plain>(&Plans::new(&mut Random::new(1), capacity), 1)
}

#[test]
fn kernel_and_plain_rust_agree() {
    let rows = measured(4096);
    assert_eq!(rows.len(), 16);
    assert!(rows.iter().all(|row| row.ours > 0.0 && row.theirs > 0.0));
}

#[test]
fn kernel_and_plain_rust_agree_on_journals() {
    let rows = journal_rows::<Kernel, Plain>(&Plans::new(&mut Random::new(1), 4096), 1);
    assert_eq!(rows.len(), 3);
    assert!(rows.iter().all(|row| row.ours > 0.0 && row.theirs > 0.0));
}

/// The row of this question compares only the yes.
#[test]
fn plain_rust_counts_the_steps_of_a_distance() {
    for tabs in two_tabs(&Plans::new(&mut Random::new(1), 512).one_gap) {
        let answer = plain::same_tie(tabs.table, tabs.first as u16, tabs.middle as u16);
        assert_eq!(answer, binding::same_edge(tabs.table, tabs.first, tabs.middle));
        assert!(answer.yes && answer.count > 0);
    }
}

#[test]
fn small_tables_have_no_long_ring() {
    let names: Vec<String> = measured(512).into_iter().map(|row| row.name).collect();
    let has = |name: &str| names.iter().any(|n| n == name);
    assert!(has("ring of 255") && !has("ring of 2,048"));
}

#[test]
fn the_best_times_are_kept() {
    let row = |ours, theirs| Row { name: "a row".to_string(), ours, theirs };
    let mut best = row(3.0, 4.0);
    best.keep_best(&row(5.0, 2.0));
    assert_eq!((best.ours, best.theirs), (3.0, 2.0));
}
