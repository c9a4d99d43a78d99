//! Tapes to make tests of: random ones, whole and damaged.

use crate::commands::{write, Command, Tab};
use crate::testing::plans;
use crate::testing::random::Random;
use crate::testing::second::Plan;

/// A tape for an empty table.
pub fn random(random: &mut Random, capacity: usize) -> Vec<u8> {
    on(random, Plan::empty(capacity))
}

/// Commands that were accepted on the way, with one now and then that was not.
pub fn on(random: &mut Random, mut plan: Plan) -> Vec<u8> {
    let capacity = plan.capacity;
    let mut bytes = vec![];
    for _ in 0..random.below(60) {
        let command = match random.below(6) {
            0 => Command::Report,
            1 | 2 => Command::Put(1 + random.below(capacity.max(1)) as Tab),
            _ => plans::command(random, &plan),
        };
        if command.fits_tape() && (plan.apply(&command) == 0 || random.once_in(40)) {
            bytes.extend(write(&command));
        }
    }
    bytes
}

/// Cuts a tape short, changes a byte, adds some, or does nothing.
pub fn damage(random: &mut Random, tape: &mut Vec<u8>) {
    match random.below(6) {
        0 => tape.truncate(random.below(tape.len() + 1)),
        1 => tape.push(*random.one_of(&[0, 1, 3, 8, 9, 255])),
        2 if !tape.is_empty() => {
            let at = random.below(tape.len());
            tape[at] = random.next() as u8;
        }
        3 => tape.extend([8, 0]),
        _ => {}
    }
}
