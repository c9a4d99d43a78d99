//! What can be wrong in a tape's text, in words.

use crate::commands::MAX_CROSSINGS;
use std::fmt::{self, Display, Formatter};

/// How many characters of a wrong word are shown.
const SHOWN: usize = 40;

#[derive(Clone, PartialEq, Eq, Debug)]
pub struct Mistake {
    pub line: usize,
    pub wrong: Wrong,
}

#[derive(Clone, PartialEq, Eq, Debug)]
pub enum Wrong {
    /// Words that are no command, and the names that start like them.
    Name { words: String, alike: Vec<&'static str> },
    /// A command that needs more tabs, or fewer.
    Tabs { name: &'static str, needed: &'static str, found: usize },
    /// A ring that is too long for a tape.
    Crossings { found: usize },
    /// A word that is no tab number.
    Tab(String),
    /// A line of bytes without any.
    NoBytes,
    /// A word that is no byte.
    Byte(String),
}

/// A word as a message quotes it: what cannot be printed is escaped, and a long one is cut off.
fn quoted(word: &str) -> String {
    let shown: String = word.chars().take(SHOWN).flat_map(char::escape_debug).collect();
    let more = if word.chars().nth(SHOWN).is_some() { "…" } else { "" };
    format!("'{shown}{more}'")
}

fn here(number: usize) -> String {
    format!("here {} {number}", if number == 1 { "is" } else { "are" })
}

impl Display for Wrong {
    fn fmt(&self, f: &mut Formatter) -> fmt::Result {
        match self {
            Wrong::Name { words, alike } => match &alike[..] {
                [] => write!(f, "{} is no command", quoted(words)),
                [name] => write!(f, "{} is no command, '{name}' is", quoted(words)),
                names => write!(f, "{} is no command, '{}' are", quoted(words), names.join("' and '")),
            },
            Wrong::Tabs { name, needed, found } => write!(f, "{name} needs {needed}, {}", here(*found)),
            Wrong::Crossings { found } => write!(f, "ring has at most {MAX_CROSSINGS} crossings, {}", here(*found)),
            Wrong::Tab(word) => write!(f, "{} is no tab number from 0 to {}", quoted(word), u16::MAX),
            Wrong::NoBytes => write!(f, "bytes needs one byte or more, {}", here(0)),
            Wrong::Byte(word) => write!(f, "{} is no byte of two hexadecimal digits", quoted(word)),
        }
    }
}

impl Display for Mistake {
    fn fmt(&self, f: &mut Formatter) -> fmt::Result {
        write!(f, "line {}: {}", self.line, self.wrong)
    }
}
