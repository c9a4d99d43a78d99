//! The command `tape`: tapes as text, explained, measured and drawn. It never panics, whatever the input.

use lotskadi_host::commands::{self, Command, Placed};
use lotskadi_host::text::{self, Line};
use lotskadi_host::words::counted;
use lotskadi_host::{draw, explain};
use std::ffi::{OsStr, OsString};
use std::io::{self, Read, Write};
use std::process::ExitCode;

const USAGE: &str = "\
tape from-text [FILE]                  writes the tape of a text
tape to-text [FILE]                    writes the text of a tape
tape explain [--text] [FILE]           plays a tape on an empty table and says how it went; why, where it was refused
tape needs [--text] [FILE]             what a tape needs: capacity, commands, peak, words, a line each
tape draw [--text] [--ring N] [FILE]   the plan that a tape builds, as Graphviz input; with --ring the plan before
                                       and after its Nth ring
tape help                              writes this

FILE missing or -: standard input. --text: the file is text, not a tape.
Exit status: 0 done; 1 refused, or errors in the text; 2 wrong usage, or a file that cannot be read.
";

const JOBS: [&str; 5] = ["from-text", "to-text", "explain", "needs", "draw"];

/// What a call writes to standard output and to standard error, and its exit status.
struct Outcome {
    output: Vec<u8>,
    messages: String,
    status: u8,
}

impl Outcome {
    fn done(output: impl Into<Vec<u8>>) -> Outcome {
        Outcome { output: output.into(), messages: String::new(), status: 0 }
    }

    fn failed(messages: String) -> Outcome {
        Outcome { output: vec![], messages, status: 1 }
    }

    fn wrong_usage(reason: &str) -> Outcome {
        Outcome { output: vec![], messages: format!("{reason}{USAGE}"), status: 2 }
    }

    fn unreadable(what: &str, error: io::Error) -> Outcome {
        Outcome { output: vec![], messages: format!("tape: cannot read {what}: {error}\n"), status: 2 }
    }
}

// ARGUMENTS

#[derive(Default)]
struct Arguments<'a> {
    is_text: bool,
    ring: Option<usize>,
    file: Option<&'a OsStr>,
}

fn ring_number(word: Option<&OsString>) -> Result<usize, String> {
    match word.and_then(|word| word.to_str()?.parse().ok()) {
        Some(number) if number > 0 => Ok(number),
        _ => Err("tape: --ring needs a number from 1 on\n".to_string()),
    }
}

/// The arguments behind the name of a job, or what is wrong with them.
fn arguments<'a>(job: &str, words: &'a [OsString]) -> Result<Arguments<'a>, String> {
    let mut arguments = Arguments::default();
    let mut words = words.iter();
    while let Some(word) = words.next() {
        match word.to_str() {
            Some("--text") if ["explain", "needs", "draw"].contains(&job) => arguments.is_text = true,
            Some("--ring") if job == "draw" => arguments.ring = Some(ring_number(words.next())?),
            Some(option) if option.starts_with('-') && option != "-" => {
                return Err(format!("tape: '{option}' is no option of {job}\n"));
            }
            _ if arguments.file.is_some() => return Err("tape: more than one FILE\n".to_string()),
            _ => arguments.file = Some(word),
        }
    }
    Ok(arguments)
}

/// The bytes of a file, or of standard input.
fn read(file: Option<&OsStr>) -> Result<Vec<u8>, Outcome> {
    match file {
        Some(path) if path != "-" => {
            std::fs::read(path).map_err(|error| Outcome::unreadable(&path.to_string_lossy(), error))
        }
        _ => {
            let mut bytes = vec![];
            let read = io::stdin().lock().read_to_end(&mut bytes);
            read.map(|_| bytes).map_err(|error| Outcome::unreadable("standard input", error))
        }
    }
}

// JOBS

/// The tape of a text with the lines that it came from, or messages for all mistakes in the text.
fn tape_of_text(text: &[u8]) -> Result<(Vec<u8>, Vec<Line>), Outcome> {
    text::to_tape(text).map_err(|mistakes| {
        let messages = mistakes.iter().map(|mistake| format!("{mistake}\n")).collect();
        Outcome::failed(messages)
    })
}

fn explain_run(tape: &[u8], lines: &[Line]) -> Outcome {
    let played = explain::play(tape);
    Outcome { status: u8::from(played.refused.is_some()), ..Outcome::done(played.in_words(lines)) }
}

fn needs(tape: &[u8], lines: &[Line]) -> Outcome {
    match explain::needs(tape) {
        Ok(needs) => {
            let numbers = [
                ("capacity", needs.capacity),
                ("commands", needs.commands),
                ("peak", needs.peak),
                ("words", needs.words),
            ];
            let lines: String = numbers.iter().map(|(name, number)| format!("{name} {number}\n")).collect();
            Outcome::done(lines)
        }
        Err(refused) => Outcome::failed(refused.in_words(lines)),
    }
}

/// The drawing of the plan before and after a ring, or how many rings there are if there are fewer.
fn draw_ring(tape: &[u8], accepted: usize, number: usize) -> Outcome {
    let is_ring = |placed: &Placed| matches!(placed.command, Command::Ring(_));
    let rings: Vec<Placed> = commands::whole(tape).take(accepted).filter(is_ring).collect();
    match rings.get(number - 1) {
        Some(Placed { command, bytes }) => {
            let (before, after) = (explain::play(&tape[..bytes.start]), explain::play(&tape[..bytes.end]));
            Outcome::done(draw::ring(&before.table, &after.table, &command.tabs()))
        }
        None => {
            let there = counted(rings.len(), "accepted ring");
            Outcome::failed(format!("tape: there is no ring {number}, the tape has {there}\n"))
        }
    }
}

fn draw(tape: &[u8], lines: &[Line], ring: Option<usize>) -> Outcome {
    let played = explain::play(tape);
    let mut outcome = match ring {
        None => Outcome::done(draw::plan(&played.table)),
        Some(number) => draw_ring(tape, played.accepted, number),
    };
    if played.refused.is_some() {
        outcome.messages += &played.in_words(lines);
        outcome.status = 1;
    }
    outcome
}

/// What a call with these words leads to, early or late.
fn outcome(words: &[OsString]) -> Result<Outcome, Outcome> {
    let (job, words) = words.split_first().ok_or_else(|| Outcome::wrong_usage(""))?;
    let job = job.to_string_lossy();
    if job == "help" || job == "--help" || words.iter().any(|word| word == "--help") {
        return Ok(Outcome::done(USAGE));
    }
    if !JOBS.contains(&&*job) {
        return Err(Outcome::wrong_usage(&format!("tape: '{job}' is no command\n")));
    }
    let arguments = arguments(&job, words).map_err(|reason| Outcome::wrong_usage(&reason))?;
    let input = read(arguments.file)?;
    let is_text = arguments.is_text || job == "from-text";
    let (tape, lines) = if is_text { tape_of_text(&input)? } else { (input, vec![]) };
    Ok(match &*job {
        "from-text" => Outcome::done(tape),
        "to-text" => Outcome::done(text::from_tape(&tape)),
        "explain" => explain_run(&tape, &lines),
        "needs" => needs(&tape, &lines),
        _ => draw(&tape, &lines, arguments.ring),
    })
}

/// A reader that has gone away is no failure.
fn write(output: &[u8]) -> io::Result<()> {
    let mut standard_output = io::stdout().lock();
    match standard_output.write_all(output).and_then(|()| standard_output.flush()) {
        Err(error) if error.kind() == io::ErrorKind::BrokenPipe => Ok(()),
        written => written,
    }
}

fn main() -> ExitCode {
    let words: Vec<OsString> = std::env::args_os().skip(1).collect();
    let mut outcome = outcome(&words).unwrap_or_else(|failed| failed);
    if let Err(error) = write(&outcome.output) {
        outcome.messages += &format!("tape: cannot write: {error}\n");
        outcome.status = 2;
    }
    // nothing is left to be done where even this cannot be written
    let _ = io::stderr().write_all(outcome.messages.as_bytes());
    ExitCode::from(outcome.status)
}
