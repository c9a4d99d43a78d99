//! Tapes as text, a command a line: its name and its tabs, as in `tie join 1 2`. A line `bytes 08 02` holds what is no
//! whole command, and `#` starts a comment.

pub mod mistakes;

use self::mistakes::{Mistake, Wrong};
use crate::commands::{self, Command, Tab, MAX_CROSSINGS};
use std::fmt::{self, Display, Formatter};

/// The names of the commands, by their bytes from 1 on.
const NAMES: [&str; 8] = ["put", "take out", "tie join", "tie cut", "cell join", "cell cut", "report", "ring"];
/// The name of a line that is no command.
const BYTES: &str = "bytes";
/// How many bytes such a line has where the text is made from a tape.
const BYTES_IN_LINE: usize = 16;

/// The name of the command that starts with a byte.
pub fn name(byte: u8) -> Option<&'static str> {
    NAMES.get(usize::from(byte).checked_sub(1)?).copied()
}

impl Display for Command {
    fn fmt(&self, f: &mut Formatter) -> fmt::Result {
        f.write_str(name(self.byte()).unwrap_or_default())?;
        self.tabs().iter().try_for_each(|tab| write!(f, " {tab}"))
    }
}

// FROM A TAPE

fn bytes_line(bytes: &[u8]) -> String {
    let digits: String = bytes.iter().map(|byte| format!(" {byte:02x}")).collect();
    format!("{BYTES}{digits}\n")
}

/// The text of any bytes: whole commands a line each, and the rest from the first that is none.
pub fn from_tape(tape: &[u8]) -> String {
    let mut text = String::new();
    let mut end = 0;
    for placed in commands::whole(tape) {
        text += &format!("{}\n", placed.command);
        end = placed.bytes.end;
    }
    text.extend(tape[end..].chunks(BYTES_IN_LINE).map(bytes_line));
    text
}

// TO A TAPE

/// A line of the text that made bytes of the tape, and the first of them.
#[derive(Clone, Copy, PartialEq, Eq, Debug)]
pub struct Line {
    pub number: usize,
    pub start: usize,
}

/// The number of the line that made a byte of the tape, if any did.
pub fn line_of(lines: &[Line], byte: usize) -> Option<usize> {
    let behind = lines.partition_point(|line| line.start <= byte);
    Some(lines.get(behind.checked_sub(1)?)?.number)
}

/// Whether the words start with a name, and those behind it.
fn behind_name<'a, 'b>(name: &str, words: &'a [&'b str]) -> Option<&'a [&'b str]> {
    let length = name.split(' ').count();
    let start = words.get(..length)?;
    start.iter().copied().eq(name.split(' ')).then_some(&words[length..])
}

/// Words that are no command, with the names of which the first word is the same but for its case.
fn wrong_name(words: &[&str]) -> Wrong {
    let first = words[0];
    let starts_alike = |name: &&str| name.split(' ').next().is_some_and(|word| word.eq_ignore_ascii_case(first));
    let alike: Vec<&str> = NAMES.into_iter().chain([BYTES]).filter(starts_alike).collect();
    let two_words = alike.iter().any(|name| name.contains(' '));
    let length = if two_words { words.len().min(2) } else { 1 };
    Wrong::Name { words: words[..length].join(" "), alike }
}

fn wrong_counts(name: &'static str, found: usize) -> Vec<Wrong> {
    let (is_right, needed) = match name {
        "put" | "take out" => (found == 1, "one tab"),
        "report" => (found == 0, "no tabs"),
        "ring" => (found % 2 == 0, "pairs of tabs"),
        _ => (found == 2, "two tabs"),
    };
    let mut wrong = vec![];
    if !is_right {
        wrong.push(Wrong::Tabs { name, needed, found });
    }
    if name == "ring" && found / 2 > MAX_CROSSINGS {
        wrong.push(Wrong::Crossings { found: found / 2 });
    }
    wrong
}

/// A number in decimal digits alone.
fn tab(word: &str) -> Result<Tab, Wrong> {
    let digits_only = word.bytes().all(|c| c.is_ascii_digit());
    match word.parse::<u16>() {
        Ok(number) if digits_only => Ok(Tab::from(number)),
        _ => Err(Wrong::Tab(word.to_string())),
    }
}

fn byte(word: &str) -> Result<u8, Wrong> {
    let two_digits = word.len() == 2 && word.bytes().all(|c| c.is_ascii_hexdigit());
    match u8::from_str_radix(word, 16) {
        Ok(byte) if two_digits => Ok(byte),
        _ => Err(Wrong::Byte(word.to_string())),
    }
}

/// What the words stand for, each by itself; what is wrong with any goes behind what is wrong already.
fn each<T>(words: &[&str], read: impl Fn(&str) -> Result<T, Wrong>, wrong: &mut Vec<Wrong>) -> Vec<T> {
    words.iter().filter_map(|word| read(word).map_err(|what| wrong.push(what)).ok()).collect()
}

fn command_line(byte: u8, name: &'static str, words: &[&str]) -> Result<Vec<u8>, Vec<Wrong>> {
    let mut wrong = wrong_counts(name, words.len());
    let tabs = each(words, tab, &mut wrong);
    match Command::new(byte, &tabs) {
        Some(command) if wrong.is_empty() => Ok(commands::write(&command)),
        _ => Err(wrong),
    }
}

fn other_line(words: &[&str]) -> Result<Vec<u8>, Vec<Wrong>> {
    let mut wrong = if words.is_empty() { vec![Wrong::NoBytes] } else { vec![] };
    let bytes = each(words, byte, &mut wrong);
    if wrong.is_empty() {
        Ok(bytes)
    } else {
        Err(wrong)
    }
}

/// The bytes of a line, or all that is wrong with it; no bytes where it has no words.
fn line_bytes(line: &str) -> Result<Vec<u8>, Vec<Wrong>> {
    let line = line.strip_suffix('\r').unwrap_or(line);
    let before_comment = line.split('#').next().unwrap_or_default();
    let words: Vec<&str> = before_comment.split([' ', '\t']).filter(|word| !word.is_empty()).collect();
    if words.is_empty() {
        return Ok(vec![]);
    }
    if let Some(bytes) = behind_name(BYTES, &words) {
        return other_line(bytes);
    }
    let named = (1..).zip(NAMES).find_map(|(byte, name)| Some((byte, name, behind_name(name, &words)?)));
    match named {
        Some((byte, name, tabs)) => command_line(byte, name, tabs),
        None => Err(vec![wrong_name(&words)]),
    }
}

/// The tape of a text and the lines that it came from, or every mistake in the text. Bytes that are no UTF-8 do no harm
/// in comments.
pub fn to_tape(text: &[u8]) -> Result<(Vec<u8>, Vec<Line>), Vec<Mistake>> {
    let text = String::from_utf8_lossy(text);
    let text = text.strip_prefix('\u{feff}').unwrap_or(&text);
    let (mut tape, mut lines, mut mistakes) = (vec![], vec![], vec![]);
    for (number, line) in (1..).zip(text.split('\n')) {
        match line_bytes(line) {
            Ok(bytes) if bytes.is_empty() => {}
            Ok(bytes) => {
                lines.push(Line { number, start: tape.len() });
                tape.extend(bytes);
            }
            Err(wrong) => mistakes.extend(wrong.into_iter().map(|wrong| Mistake { line: number, wrong })),
        }
    }
    if mistakes.is_empty() {
        Ok((tape, lines))
    } else {
        Err(mistakes)
    }
}
