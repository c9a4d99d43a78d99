//! The commands of a tape, and their bytes.

use std::ops::Range;

/// The most tabs that a table has room for.
pub const MAX_CAPACITY: usize = 4096;
/// The most bytes of a tape.
pub const MAX_TAPE: usize = 65_536;
/// The most crossings of a ring on a tape, which counts them in one byte.
pub const MAX_CROSSINGS: usize = 255;

pub type Tab = u32;

#[derive(Clone, Copy, PartialEq, Eq, PartialOrd, Ord, Debug)]
pub enum Dimension {
    Tie,
    Cell,
}

#[derive(Clone, PartialEq, Eq, Debug)]
pub enum Command {
    Put(Tab),
    TakeOut(Tab),
    Join(Dimension, Tab, Tab),
    Cut(Dimension, Tab, Tab),
    Report,
    Ring(Vec<Tab>),
}

impl Command {
    /// The command of a byte and tabs, if the byte is one and has that many tabs.
    pub fn new(byte: u8, tabs: &[Tab]) -> Option<Command> {
        match (byte, tabs) {
            (1, &[t]) => Some(Command::Put(t)),
            (2, &[t]) => Some(Command::TakeOut(t)),
            (3, &[a, b]) => Some(Command::Join(Dimension::Tie, a, b)),
            (4, &[a, b]) => Some(Command::Cut(Dimension::Tie, a, b)),
            (5, &[a, b]) => Some(Command::Join(Dimension::Cell, a, b)),
            (6, &[a, b]) => Some(Command::Cut(Dimension::Cell, a, b)),
            (7, []) => Some(Command::Report),
            (8, tabs) => Some(Command::Ring(tabs.to_vec())),
            _ => None,
        }
    }

    /// The byte that the command starts with.
    pub fn byte(&self) -> u8 {
        match self {
            Command::Put(_) => 1,
            Command::TakeOut(_) => 2,
            Command::Join(Dimension::Tie, ..) => 3,
            Command::Cut(Dimension::Tie, ..) => 4,
            Command::Join(Dimension::Cell, ..) => 5,
            Command::Cut(Dimension::Cell, ..) => 6,
            Command::Report => 7,
            Command::Ring(_) => 8,
        }
    }

    /// The tabs that the command names, in its order.
    pub fn tabs(&self) -> Vec<Tab> {
        match self {
            Command::Put(t) | Command::TakeOut(t) => vec![*t],
            Command::Join(_, a, b) | Command::Cut(_, a, b) => vec![*a, *b],
            Command::Report => vec![],
            Command::Ring(tabs) => tabs.clone(),
        }
    }

    /// Whether a tape can hold the command: two bytes a tab, one for the number of crossings.
    pub fn fits_tape(&self) -> bool {
        let is_list = match self {
            Command::Ring(tabs) => tabs.len() % 2 == 0 && tabs.len() <= 2 * MAX_CROSSINGS,
            _ => true,
        };
        is_list && self.tabs().iter().all(|&t| t <= Tab::from(u16::MAX))
    }
}

/// How many bytes the first command of a tape has, whether they are all there or not; nothing where it is unknown. A
/// ring that lacks even its count has two at least.
pub fn size(tape: &[u8]) -> Option<usize> {
    match tape.first()? {
        1 | 2 => Some(3),
        3..=6 => Some(5),
        7 => Some(1),
        8 => Some(2 + 4 * usize::from(tape.get(1).copied().unwrap_or(0))),
        _ => None,
    }
}

/// The first command of a tape and its bytes, or refusal 15 or 16.
pub fn read(tape: &[u8]) -> Result<(Command, usize), u8> {
    let size = size(tape).ok_or(15)?;
    let bytes = tape.get(..size).ok_or(16)?;
    let head = if bytes[0] == 8 { 2 } else { 1 };
    let tabs: Vec<Tab> =
        bytes[head..].chunks(2).map(|pair| Tab::from(u16::from_le_bytes([pair[0], pair[1]]))).collect();
    Ok((Command::new(bytes[0], &tabs).ok_or(15)?, size))
}

/// The bytes of a command that fits a tape.
pub fn write(command: &Command) -> Vec<u8> {
    let mut bytes = vec![command.byte()];
    if let Command::Ring(tabs) = command {
        bytes.push((tabs.len() / 2) as u8);
    }
    bytes.extend(command.tabs().iter().flat_map(|&t| (t as u16).to_le_bytes()));
    bytes
}

/// A command, and the bytes of the tape where it stands.
pub struct Placed {
    pub command: Command,
    pub bytes: Range<usize>,
}

/// The commands of a tape in turn, up to its end or to the first that is unknown or torn.
pub fn whole(tape: &[u8]) -> impl Iterator<Item = Placed> + '_ {
    let mut start = 0;
    std::iter::from_fn(move || {
        let (command, size) = read(&tape[start..]).ok()?;
        let bytes = start..start + size;
        start = bytes.end;
        Some(Placed { command, bytes })
    })
}
