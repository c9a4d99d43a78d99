//! What broke the rule of a refusal, in words.

use crate::commands::{Dimension, Tab};
use crate::explain::culprits::{Break, Crossing, Culprits, Twice};
use crate::text;
use crate::words::{counted, row};

fn is(tabs: &[Tab], what: &str, state: &str) -> String {
    match tabs {
        [tab] => format!("{what} {tab} is {state}"),
        _ => format!("{what}s {} are {state}", row(tabs)),
    }
}

/// The tab that a round starts with.
fn start(round: &[Tab]) -> String {
    row(&round[..round.len().min(1)])
}

fn dimension_name(dimension: Dimension) -> &'static str {
    match dimension {
        Dimension::Tie => "tie",
        Dimension::Cell => "cell",
    }
}

fn together(dimension: Dimension, round: &[Tab], other: Tab, distance: usize) -> String {
    let part = dimension_name(dimension);
    let (first, steps) = (start(round), counted(distance, "step"));
    match distance {
        0 => format!("both are {other}, in the {part} {}", row(round)),
        _ => format!("{first} and {other} lie in the {part} {}, {steps} from {first} to {other}", row(round)),
    }
}

fn apart(dimension: Dimension, first: &[Tab], second: &[Tab]) -> String {
    let part = dimension_name(dimension);
    format!("{} lies in the {part} {}, and {} in the {part} {}", start(first), row(first), start(second), row(second))
}

fn crossing_apart((crossing, first, second): &(Crossing, Vec<Tab>, Vec<Tab>)) -> String {
    format!("of crossing {}, {}", crossing.number, apart(Dimension::Tie, first, second))
}

fn from_to(crossing: &Crossing) -> String {
    format!("from {} to {}", crossing.first, crossing.second)
}

fn crossing_same(crossing: &Crossing) -> String {
    format!("crossing {} goes {}", crossing.number, from_to(crossing))
}

fn tie_twice(Twice { earlier, later, round }: &Twice) -> String {
    let (earlier_tabs, later_tabs) = (from_to(earlier), from_to(later));
    let crossings = format!("crossing {} {earlier_tabs} and crossing {} {later_tabs}", earlier.number, later.number);
    format!("{crossings} both cross the tie {}", row(round))
}

fn gap_twice(Twice { earlier, later, round }: &Twice) -> String {
    let earlier = format!("crossing {} starts at {}", earlier.number, earlier.first);
    let later = format!("crossing {} at {}", later.number, later.first);
    format!("{earlier} and {later}, both in the gap {}", row(round))
}

fn broken(Break { crossing, next, end, start }: &Break) -> String {
    let ends = format!("crossing {} ends at {}, in the gap {}", crossing.number, crossing.second, row(end));
    let starts = format!("crossing {} starts at {}, in the gap {}", next.number, next.first, row(start));
    format!("{ends}, and {starts}")
}

fn torn(byte: u8, crossings: Option<u8>, size: usize, found: usize) -> String {
    let all = match crossings {
        Some(number) => format!("a ring of {} has {size} bytes", counted(usize::from(number), "crossing")),
        None if byte == 8 => format!("a ring has {size} bytes at least"),
        None => format!("a {} has {size} bytes", text::name(byte).unwrap_or_default()),
    };
    match size.saturating_sub(found) {
        1 => format!("{all}, of which 1 is missing"),
        missing => format!("{all}, of which {missing} are missing"),
    }
}

/// A sentence for each culprit, without its full stop.
pub fn sentences(culprits: &Culprits) -> Vec<String> {
    match culprits {
        Culprits::Length(bytes) => vec![format!("the tape has {}", counted(*bytes, "byte"))],
        Culprits::OffTable(numbers) => vec![is(numbers, "tab number", "off the table of 4,096 tabs")],
        Culprits::Absent(tabs) => vec![is(tabs, "tab", "absent")],
        Culprits::Hanging { tie, cell } => {
            vec![format!("{} lies in the tie {} and in the cell {}", start(tie), row(tie), row(cell))]
        }
        Culprits::Together { dimension, round, other, distance } => {
            vec![together(*dimension, round, *other, *distance)]
        }
        Culprits::Apart { dimension, first, second } => vec![apart(*dimension, first, second)],
        Culprits::CrossingsApart(crossings) => crossings.iter().map(crossing_apart).collect(),
        Culprits::SameTab(tab) => vec![format!("both are {tab}")],
        Culprits::CrossingsSame(crossings) => crossings.iter().map(crossing_same).collect(),
        Culprits::NoCrossings => vec!["it is empty".to_string()],
        Culprits::TieTwice(found) => found.iter().map(tie_twice).collect(),
        Culprits::GapTwice(found) => found.iter().map(gap_twice).collect(),
        Culprits::Broken(breaks) => breaks.iter().map(broken).collect(),
        Culprits::Unknown(byte) => vec![format!("{byte:02x} is not from 01 to 08")],
        Culprits::Torn { byte, crossings, size, found } => vec![torn(*byte, *crossings, *size, *found)],
        Culprits::Nothing => vec![],
    }
}
