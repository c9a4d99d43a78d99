//! The second implementation of document 02, Job 1: what a tape needs, from its definition, and what a run of it goes
//! through.

use crate::commands::{read, Command, Dimension, MAX_TAPE};
use crate::testing::second::Plan;

/// The four numbers of a tape.
#[derive(Clone, Copy, PartialEq, Eq, Debug)]
pub struct Needs {
    pub capacity: u32,
    pub commands: u32,
    pub peak: u32,
    pub words: u32,
}

/// All commands of a tape, or the first refusal.
pub fn commands(tape: &[u8]) -> Result<Vec<Command>, u8> {
    let mut commands = vec![];
    let mut rest = tape;
    while !rest.is_empty() {
        let (command, size) = read(rest)?;
        commands.push(command);
        rest = &rest[size..];
    }
    Ok(commands)
}

/// Puts less take-outs.
fn gain(command: &Command) -> i64 {
    match command {
        Command::Put(_) => 1,
        Command::TakeOut(_) => -1,
        _ => 0,
    }
}

fn words(command: &Command) -> u32 {
    match command {
        Command::Report => 0,
        Command::Ring(tabs) => 4 * (tabs.len() / 2) as u32,
        _ => 4,
    }
}

pub fn needs(tape: &[u8]) -> Result<Needs, u8> {
    if tape.len() > MAX_TAPE {
        return Err(1);
    }
    let commands = commands(tape)?;
    let mut gained = vec![0];
    for command in &commands {
        gained.push(gained[gained.len() - 1] + gain(command));
    }
    Ok(Needs {
        capacity: commands.iter().flat_map(Command::tabs).max().unwrap_or(0),
        commands: commands.len() as u32,
        peak: *gained.iter().max().unwrap() as u32,
        words: commands.iter().map(words).sum(),
    })
}

/// What a run from an empty table goes through.
#[derive(Clone, Copy, PartialEq, Eq, Debug)]
pub struct Undergone {
    pub most_tabs: u32,
    pub changed_words: u32,
}

/// A ring as one tie cut for each crossing.
pub fn crossing_by_crossing(command: &Command) -> Vec<Command> {
    match command {
        Command::Ring(tabs) => {
            tabs.chunks_exact(2).map(|pair| Command::Cut(Dimension::Tie, pair[0], pair[1])).collect()
        }
        other => vec![other.clone()],
    }
}

/// The moments of a run that accepts every command; nothing where it does not.
pub fn undergone(capacity: usize, commands: &[Command]) -> Option<Undergone> {
    let mut plan = Plan::empty(capacity);
    let mut met = Undergone { most_tabs: 0, changed_words: 0 };
    for command in commands {
        if plan.refusal(command) != 0 {
            return None;
        }
        for single in crossing_by_crossing(command) {
            let before = plan.to_words();
            assert_eq!(plan.apply(&single), 0, "{single:?}");
            let after = plan.to_words();
            met.changed_words += before.iter().zip(&after).filter(|(old, new)| old != new).count() as u32;
            met.most_tabs = met.most_tabs.max(plan.tie.len() as u32);
        }
    }
    Some(met)
}
