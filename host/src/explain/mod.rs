//! How the run of a tape went, in words: what was accepted, or which command was refused, and why.

pub mod culprits;
pub mod refusals;
pub mod sentences;

use self::culprits::Culprits;
use self::sentences::sentences;
use crate::binding::{self, Needs};
use crate::commands::{self, Command, MAX_CAPACITY};
use crate::text::{self, Line};
use crate::words::{counted, report, row, SHOWN};

/// A refused command, or a refused tape.
#[derive(Clone, PartialEq, Eq, Debug)]
pub struct Refused {
    pub number: u8,
    /// How many commands stand before it.
    pub before: usize,
    /// Where it starts on the tape.
    pub start: usize,
    /// Nothing where the tape has no whole command there.
    pub command: Option<Command>,
    pub culprits: Culprits,
}

/// A run on an empty table of 4,096 tabs.
pub struct Played {
    /// What the accepted commands leave.
    pub table: Vec<u16>,
    pub accepted: usize,
    pub refused: Option<Refused>,
}

/// A refusal of the command behind so many others, which it met on the table.
fn refused(table: &[u16], tape: &[u8], number: u8, before: usize) -> Refused {
    if number == 1 {
        return Refused { number, before: 0, start: 0, command: None, culprits: Culprits::Length(tape.len()) };
    }
    let start = commands::whole(tape).take(before).last().map_or(0, |placed| placed.bytes.end);
    let command = commands::read(&tape[start..]).ok().map(|(command, _)| command);
    let culprits = match &command {
        Some(command) => culprits::of_command(table, command, number),
        None => culprits::of_rest(&tape[start..]),
    };
    Refused { number, before, start, command, culprits }
}

/// The kernel plays the tape.
pub fn play(tape: &[u8]) -> Played {
    let mut table = vec![0; 4 * MAX_CAPACITY];
    let run = binding::play(&mut table, tape);
    let accepted = run.accepted as usize;
    let refused = (run.number != 0).then(|| refused(&table, tape, run.number, accepted));
    Played { table, accepted, refused }
}

/// What the kernel says that the tape needs, or why it cannot be read.
pub fn needs(tape: &[u8]) -> Result<Needs, Refused> {
    let needs = binding::tape_needs(tape);
    match needs.number {
        0 => Ok(needs),
        number => Err(refused(&[], tape, number, commands::whole(tape).count())),
    }
}

// IN WORDS

/// The rule with what broke it behind: one culprit in the same line, several below, a line each.
fn reason(rule: &str, culprits: &[String]) -> String {
    let (first, rest) = rule.split_at(rule.len().min(1));
    let rule = first.to_ascii_uppercase() + rest;
    match culprits {
        [] => format!("{rule}.\n"),
        [only] => format!("{rule}: {only}.\n"),
        many => {
            let shown: String = many.iter().take(SHOWN).map(|culprit| format!("  {culprit}\n")).collect();
            let more = many.len().saturating_sub(SHOWN);
            let left_out = if more == 0 { String::new() } else { format!("  … and {more} more\n") };
            format!("{rule}:\n{shown}{left_out}")
        }
    }
}

impl Refused {
    /// The refused command as text, or what stands there in place of one.
    fn subject(&self) -> String {
        match (&self.command, &self.culprits) {
            (Some(command), _) => {
                let name = text::name(command.byte()).unwrap_or_default();
                let tabs = row(&command.tabs());
                format!("{name} {tabs}").trim_end().to_string()
            }
            (None, Culprits::Unknown(byte)) => format!("byte {byte:02x}"),
            (None, Culprits::Torn { byte, .. }) => text::name(*byte).unwrap_or_default().to_string(),
            (None, _) => String::new(),
        }
    }

    fn place(&self, lines: &[Line]) -> String {
        if let Culprits::Length(bytes) = self.culprits {
            return format!("a tape of {}", counted(bytes, "byte"));
        }
        let place = format!("command {}, {}, at byte {}", self.before + 1, self.subject(), self.start);
        match text::line_of(lines, self.start) {
            Some(line) => format!("{place}, line {line}"),
            None => place,
        }
    }

    /// What was refused, where, by which rule, and what broke it; the lines are those of the text, if there was one.
    pub fn in_words(&self, lines: &[Line]) -> String {
        let (word, rule) = refusals::numbered(self.number).map_or(("", ""), |refusal| (refusal.word, refusal.wrong));
        let reason = reason(rule, &sentences(&self.culprits));
        format!("refused {}, {word}: {}\n{reason}", self.number, self.place(lines))
    }
}

fn accepted_before(number: usize) -> String {
    match number {
        0 => "No command before it was accepted.\n".to_string(),
        1 => "1 command before it was accepted.\n".to_string(),
        _ => format!("{number} commands before it were accepted.\n"),
    }
}

impl Played {
    pub fn in_words(&self, lines: &[Line]) -> String {
        match &self.refused {
            None => {
                let report = report(&binding::report(&self.table));
                format!("accepted: {}\n{report}\n", counted(self.accepted, "command"))
            }
            Some(refused) if refused.number == 1 => refused.in_words(lines) + "No command was played.\n",
            Some(refused) => refused.in_words(lines) + &accepted_before(self.accepted),
        }
    }
}
