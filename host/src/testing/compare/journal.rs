//! Calls on a journal, by the kernel and by the second implementation. Table and journal stand flush against a closed
//! page, and every word of both is compared afterwards.

use super::Met;
use crate::binding::journal::{self as kernel, Head, Journaled, JournaledRun, Undone, CHECKPOINTS};
use crate::commands::{read, whole, Command, Dimension, MAX_TAPE};
use crate::testing::guarded::Guarded;
use crate::testing::journal::{checkpoint, fits, Kept};
use crate::testing::second::Plan;

/// Where a refusal of journals was met, and which refusal came first where two fitted; each must be met.
pub const PLACES: [&str; 31] = [
    "17 of a head, by a change",
    "17 of a head, by a ring",
    "17 of a head, by a run",
    "17 of a head, setting a checkpoint",
    "17 of a head, going back",
    "17 of the first undo",
    "17 of an undo, after some were done",
    "18 of a change",
    "18 of a ring",
    "18 of a change on a tape",
    "18 of a ring on a tape",
    "19 setting a checkpoint",
    "19 going back, above 15",
    "19 going back, unset",
    "1 before 17, by a change",
    "2 before 17, by a change",
    "1 before 17, by a run",
    "2 before 17, by a run",
    "1 of a long tape before 2",
    "1 of a long tape before 17",
    "1 before 17, going back",
    "2 before 17, going back",
    "17 before the refusal of a change",
    "17 before the refusal of a ring",
    "17 before the refusal of a tape's command",
    "the refusal of a change before 18",
    "the refusal of a ring before 18",
    "the refusal of a tape's command before 18",
    "17 before 19, setting a checkpoint",
    "17 before 19, going back",
    "19 before 17 of an undo",
];

/// How often each place was met, and how often a plan came back.
pub struct Places {
    times: [u64; PLACES.len()],
    /// Returns to a checkpoint after which every word of the table was as when it was set.
    pub returns: u64,
    /// The most entries that such a return undid.
    pub longest_return: u32,
}

impl Default for Places {
    fn default() -> Places {
        Places { times: [0; PLACES.len()], returns: 0, longest_return: 0 }
    }
}

impl Places {
    fn note(&mut self, place: &str) {
        let at = PLACES.iter().position(|name| *name == place).unwrap_or_else(|| panic!("no place '{place}'"));
        self.times[at] += 1;
    }

    fn note_if(&mut self, is_met: bool, place: &str) {
        if is_met {
            self.note(place);
        }
    }

    pub fn each(&self) -> impl Iterator<Item = (&'static str, u64)> + '_ {
        PLACES.into_iter().zip(self.times)
    }
}

/// A table and a journal lent to the kernel, and what they should hold.
pub struct Journaling {
    pub table: Guarded<u16>,
    pub journal: Guarded<u16>,
    pub kept: Kept,
}

impl Journaling {
    pub fn new(table: &[u16], journal: &[u16]) -> Journaling {
        let kept = Kept { plan: Plan::from_words(table), journal: journal.to_vec() };
        Journaling { table: Guarded::new(table), journal: Guarded::new(journal), kept }
    }

    /// The plan; the empty one where the table is refused.
    pub fn plan(&self) -> Plan {
        self.kept.plan.clone().unwrap_or_default()
    }

    /// Every word is as the second implementation has it; a table that is refused is as it was.
    fn compare_words(&self, before: &[u16], what: &str) {
        match &self.kept.plan {
            Ok(plan) => assert_eq!(&self.table[..], &plan.to_words()[..], "table after {what}"),
            Err(_) => assert_eq!(&self.table[..], before, "table after {what}, refused"),
        }
        assert_eq!(&self.journal[..], &self.kept.journal[..], "journal after {what}");
    }

    fn call_kernel(&mut self, head: Head, command: &Command) -> Journaled {
        let (table, journal) = (&mut self.table, &mut self.journal);
        match *command {
            Command::Put(t) => kernel::put(table, journal, head, t),
            Command::TakeOut(t) => kernel::take_out(table, journal, head, t),
            Command::Join(Dimension::Tie, a, b) => kernel::edge_join(table, journal, head, a, b),
            Command::Join(Dimension::Cell, a, b) => kernel::vertex_join(table, journal, head, a, b),
            Command::Cut(Dimension::Tie, a, b) => kernel::edge_cut(table, journal, head, a, b),
            Command::Cut(Dimension::Cell, a, b) => kernel::vertex_cut(table, journal, head, a, b),
            Command::Ring(ref tabs) => {
                let words: Vec<u16> = tabs.iter().map(|&t| t as u16).collect();
                let ring = Guarded::new(&words);
                let answer = kernel::ring_cut(table, journal, head, &ring);
                assert_eq!(&ring[..], &words[..], "a ring is only read");
                answer
            }
            Command::Report => panic!("a report is no journaled call"),
        }
    }

    /// A journaled change or ring.
    pub fn change(&mut self, met: &mut Met, head: Head, command: &Command) -> Journaled {
        let before = self.table.to_vec();
        let own_refusal = self.kept.own_refusal(command);
        let is_full = !self.kept.has_room(head.length, command);
        let is_unfit = !fits(&head, self.journal.len());
        let answer = self.call_kernel(head, command);
        assert_eq!(answer, self.kept.change(head, command), "{command:?} on {before:?} with {head:?}");
        self.compare_words(&before, &format!("{command:?}"));
        met.note(answer.number);
        let places = &mut met.journal;
        let what = if matches!(command, Command::Ring(_)) { "ring" } else { "change" };
        match answer.number {
            1 | 2 => places.note_if(is_unfit, &format!("{} before 17, by a change", answer.number)),
            17 => {
                places.note(&format!("17 of a head, by a {what}"));
                places.note_if(own_refusal != 0, &format!("17 before the refusal of a {what}"));
            }
            18 => places.note(&format!("18 of a {what}")),
            number => places.note_if(number != 0 && is_full, &format!("the refusal of a {what} before 18")),
        }
        answer
    }

    pub fn play(&mut self, met: &mut Met, head: Head, tape: &[u8]) -> JournaledRun {
        let before = self.table.to_vec();
        let (plan, is_unfit) = (self.kept.plan.clone(), !fits(&head, self.journal.len()));
        let lent = Guarded::new(tape);
        let run = kernel::play(&mut self.table, &mut self.journal, head, &lent);
        assert_eq!(run, self.kept.play(head, tape), "run of {tape:?} on {before:?} with {head:?}");
        assert_eq!(&lent[..], tape, "a tape is only read");
        self.compare_words(&before, "a run");
        met.note(run.number);
        let places = &mut met.journal;
        match (run.number, plan) {
            (1, plan) if tape.len() > MAX_TAPE => {
                places.note_if(plan == Err(2), "1 of a long tape before 2");
                places.note_if(plan.is_ok() && is_unfit, "1 of a long tape before 17");
            }
            (number @ (1 | 2), _) => places.note_if(is_unfit, &format!("{number} before 17, by a run")),
            (17, Ok(mut plan)) => {
                places.note("17 of a head, by a run");
                let refused_at_once = plan.play(tape);
                let is_refused = refused_at_once.number != 0 && refused_at_once.accepted == 0;
                places.note_if(is_refused, "17 before the refusal of a tape's command");
            }
            _ => self.note_stop(met, tape, run),
        }
        run
    }

    /// Where a journal was full when a run stopped.
    fn note_stop(&self, met: &mut Met, tape: &[u8], run: JournaledRun) {
        let start = whole(tape).take(run.accepted as usize).last().map_or(0, |placed| placed.bytes.end);
        let command = read(&tape[start..]).ok().map(|(command, _)| command);
        let places = &mut met.journal;
        match (run.number, command) {
            (0, _) => {}
            (18, Some(Command::Ring(_))) => places.note("18 of a ring on a tape"),
            (18, _) => places.note("18 of a change on a tape"),
            (_, command) => {
                let is_full = command.is_some_and(|command| !self.kept.has_room(run.head.length, &command));
                places.note_if(is_full, "the refusal of a tape's command before 18");
            }
        }
    }

    pub fn set_checkpoint(&self, met: &mut Met, head: Head, number: u32) -> Journaled {
        let answer = kernel::set_checkpoint(&self.journal, head, number);
        assert_eq!(answer, self.kept.set_checkpoint(head, number), "checkpoint {number} in {head:?}");
        assert_eq!(&self.journal[..], &self.kept.journal[..], "journal after setting a checkpoint");
        met.note(answer.number);
        let places = &mut met.journal;
        places.note_if(answer.number == 19, "19 setting a checkpoint");
        if answer.number == 17 {
            places.note("17 of a head, setting a checkpoint");
            places.note_if(number as usize >= CHECKPOINTS, "17 before 19, setting a checkpoint");
        }
        answer
    }

    /// Whether going back from here would stop at its first undo, wherever it ends.
    fn is_stuck(&self, head: Head) -> bool {
        let mut checkpoints = head.checkpoints;
        checkpoints[0] = 0;
        let undone = self.kept.clone().go_back(Head { checkpoints, ..head }, 0);
        undone.number == 17 && undone.undone == 0
    }

    pub fn go_back(&mut self, met: &mut Met, head: Head, number: u32) -> Undone {
        let before = self.table.to_vec();
        let (is_unfit, is_unset) = (!fits(&head, self.journal.len()), checkpoint(&head, number).is_none());
        let is_stuck = is_unset && self.is_stuck(head);
        let undone = kernel::go_back(&mut self.table, &self.journal, head, number);
        assert_eq!(undone, self.kept.go_back(head, number), "back to {number} on {before:?} with {head:?}");
        self.compare_words(&before, "going back");
        met.note(undone.number);
        let places = &mut met.journal;
        match undone.number {
            1 | 2 => places.note_if(is_unfit, &format!("{} before 17, going back", undone.number)),
            17 if is_unfit => {
                places.note("17 of a head, going back");
                places.note_if(is_unset, "17 before 19, going back");
            }
            17 if undone.undone == 0 => places.note("17 of the first undo"),
            17 => places.note("17 of an undo, after some were done"),
            19 => {
                let is_above = number as usize >= CHECKPOINTS;
                places.note(if is_above { "19 going back, above 15" } else { "19 going back, unset" });
                places.note_if(is_stuck, "19 before 17 of an undo");
            }
            _ => {}
        }
        undone
    }
}
