//! Numbers, lists and reports in words, the same wherever the tool writes them.

use crate::binding::Totals;
use crate::commands::Tab;

/// How many items of a list are shown.
pub const SHOWN: usize = 12;

/// A number of things: `1 tab`, `2 tabs`.
pub fn counted(number: usize, thing: &str) -> String {
    match number {
        1 => format!("1 {thing}"),
        _ => format!("{number} {thing}s"),
    }
}

/// Tabs in a row: all of them, or the first and how many more there are.
pub fn row(tabs: &[Tab]) -> String {
    let shown: Vec<String> = tabs.iter().take(SHOWN).map(Tab::to_string).collect();
    match tabs.len().saturating_sub(SHOWN) {
        0 => shown.join(" "),
        more => format!("{} … and {more} more", shown.join(" ")),
    }
}

/// The eight numbers of a report, by document 01's words.
pub fn report(totals: &Totals) -> String {
    let counts = |things: &[(u32, &str)]| -> String {
        let each: Vec<String> = things.iter().map(|&(number, thing)| counted(number as usize, thing)).collect();
        each.join(", ")
    };
    let parts = [
        (totals.darts, "tab"),
        (totals.edges, "tie"),
        (totals.vertices, "cell"),
        (totals.faces, "gap"),
        (totals.components, "piece"),
    ];
    let rest = [(totals.genus, "handle"), (totals.lifts, "lift")];
    format!("{}, characteristic {}, {}", counts(&parts), totals.characteristic, counts(&rest))
}
