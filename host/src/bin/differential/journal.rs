//! Journals: sequences of journaled calls with checkpoints, each given the head last returned; then the same with
//! spoilt entries, heads and tables, and changes that make no entry.

use lotskadi_host::binding::journal::{self as kernel, Head, CHECKPOINTS, UNSET};
use lotskadi_host::commands::{write, Command, MAX_CAPACITY, MAX_TAPE};
use lotskadi_host::testing::compare::journal::Journaling;
use lotskadi_host::testing::compare::Met;
use lotskadi_host::testing::guarded::Guarded;
use lotskadi_host::testing::journal::fits;
use lotskadi_host::testing::needs::commands;
use lotskadi_host::testing::random::Random;
use lotskadi_host::testing::second::Plan;
use lotskadi_host::testing::{plans, tapes};

/// How many calls a sequence makes.
const CALLS: usize = 40;

/// A journal of no meaning, with room for some entries and often a word or two more.
fn journal(random: &mut Random) -> Vec<u16> {
    let entries = *random.one_of(&[0, 1, 2, 5, 12, 40, 200]);
    let words = 3 * entries + random.below(3);
    (0..words).map(|_| random.below(9) as u16).collect()
}

/// A change or a ring, mostly accepted.
fn command(random: &mut Random, plan: &Plan) -> Command {
    let found = match random.below(5) {
        0 => (0..4).find_map(|_| plans::ring(random, plan, 40)),
        _ => None,
    };
    found.map_or_else(|| plans::command(random, plan), Command::Ring)
}

/// A tape for the plan; now and then damaged, or refused at its first command, by 15, 16, 10 or 3.
fn tape(random: &mut Random, plan: &Plan) -> Vec<u8> {
    let mut bytes = tapes::on(random, plan.clone());
    match random.below(8) {
        0 | 1 => tapes::damage(random, &mut bytes),
        2 => bytes = random.one_of(&[&[9][..], &[1, 1], &[8, 0], &[2, 0, 0]]).to_vec(),
        _ => {}
    }
    bytes
}

/// A checkpoint, often one that is set, and numbers that are none.
fn checkpoint(random: &mut Random, head: &Head) -> u32 {
    let set: Vec<u32> = (0..).zip(head.checkpoints).filter(|&(_, at)| at != UNSET).map(|(number, _)| number).collect();
    match random.below(8) {
        0 => *random.one_of(&[15, 16, 17, 65_536, u32::MAX]),
        1 | 2 => random.below(CHECKPOINTS) as u32,
        _ if set.is_empty() => 0,
        _ => *random.one_of(&set),
    }
}

// FAITHFUL SEQUENCES: only journaled calls write table and journal, each given the head last returned

/// The words of the table when each checkpoint was set that still stands.
type Copies = [Option<Vec<u16>>; CHECKPOINTS];

/// Where a sequence has come to.
struct Sequence {
    lent: Journaling,
    head: Head,
    copies: Copies,
}

impl Sequence {
    fn new(plan: &Plan, journal: &[u16]) -> Sequence {
        let lent = Journaling::new(&plan.to_words(), journal);
        Sequence { lent, head: Head::empty(), copies: Copies::default() }
    }

    fn change(&mut self, met: &mut Met, command: &Command) -> u8 {
        let answer = self.lent.change(met, self.head, command);
        self.head = answer.head;
        answer.number
    }

    fn play(&mut self, met: &mut Met, tape: &[u8]) -> u8 {
        let run = self.lent.play(met, self.head, tape);
        self.head = run.head;
        run.number
    }

    fn set(&mut self, met: &mut Met, number: u32) {
        let answer = self.lent.set_checkpoint(met, self.head, number);
        self.head = answer.head;
        if answer.number == 0 {
            self.copies[number as usize] = Some(self.lent.table.to_vec());
        }
    }

    /// The promise: a checkpoint that stands is returned to, exactly.
    fn go_back(&mut self, met: &mut Met, number: u32) {
        let copy = self.copies.get(number as usize).cloned().flatten();
        let undone = self.lent.go_back(met, self.head, number);
        self.head = undone.head;
        match copy {
            Some(words) => {
                assert_eq!(undone.number, 0, "a checkpoint that stands is returned to");
                assert_eq!(&self.lent.table[..], &words[..], "the table as it was at checkpoint {number}");
                met.journal.returns += 1;
                met.journal.longest_return = met.journal.longest_return.max(undone.undone);
            }
            None => assert_eq!(undone.number, 19, "a checkpoint that was never set, or dropped"),
        }
        self.drop_copies();
    }

    /// The copies of checkpoints that were dropped are of no use.
    fn drop_copies(&mut self) {
        for (copy, at) in self.copies.iter_mut().zip(self.head.checkpoints) {
            if at == UNSET {
                *copy = None;
            }
        }
    }

    fn any_call(&mut self, random: &mut Random, met: &mut Met) {
        let plan = self.lent.plan();
        match random.below(10) {
            0 => {
                let tape = tape(random, &plan);
                self.play(met, &tape);
            }
            1 | 2 => {
                let number = checkpoint(random, &self.head);
                self.set(met, number);
            }
            3 => {
                let number = checkpoint(random, &self.head);
                self.go_back(met, number);
            }
            _ => {
                let command = command(random, &plan);
                self.change(met, &command);
            }
        }
    }
}

fn faithful(random: &mut Random, met: &mut Met) -> Sequence {
    let plan = super::plan(random);
    let mut sequence = Sequence::new(&plan, &journal(random));
    for _ in 0..1 + random.below(CALLS) {
        sequence.any_call(random, met);
    }
    sequence
}

/// Calls that keep the promise, and at the end a return to each checkpoint that stands, the latest first.
pub fn returns(random: &mut Random, met: &mut Met) {
    let mut sequence = faithful(random, met);
    let mut standing: Vec<(u32, u32)> = sequence.head.checkpoints.into_iter().zip(0..).collect();
    standing.retain(|&(at, _)| at != UNSET);
    standing.sort();
    for (_, number) in standing.into_iter().rev() {
        sequence.go_back(met, number);
    }
}

// SPOILT SEQUENCES

/// Writes into one entry: a byte that is no change, an operand where there is none, or other tabs.
fn spoil_entry(random: &mut Random, lent: &mut Journaling, head: &Head) {
    if head.length == 0 {
        return;
    }
    // one of the last entries, so that an undo meets it
    let entry = head.length as usize - 1 - random.below(head.length.min(6) as usize);
    let (place, word) = match random.below(6) {
        0 => (0, *random.one_of(&[0, 7, 8, 255, 257, 262, 65_535])),
        1 => (0, 1 + random.below(6) as u16),
        2 => (2, *random.one_of(&[0, 1, 65_535])),
        3 => (1, *random.one_of(&[0, 65_535])),
        _ => (1 + random.below(2), random.below(lent.plan().capacity + 2) as u16),
    };
    lent.journal[3 * entry + place] = word;
    lent.kept.journal[3 * entry + place] = word;
}

/// A change that makes no entry.
fn foreign_change(random: &mut Random, lent: &mut Journaling) {
    let command = command(random, &lent.plan());
    let words = lent.plan().to_words();
    if let Ok(plan) = &mut lent.kept.plan {
        if plan.apply(&command) == 0 && plan.to_words() != words {
            lent.table.copy_from_slice(&plan.to_words());
        }
    }
}

/// The same plan on a table that is too long, too short or bent.
fn damaged(random: &mut Random, lent: &Journaling) -> Journaling {
    let mut words = lent.table.to_vec();
    match random.below(3) {
        0 => words.push(0),
        1 => words.truncate(words.len().saturating_sub(1)),
        _ if words.is_empty() => words.push(7),
        _ => {
            let at = random.below(words.len());
            words[at] = *random.one_of(&[0, 1, words[at] ^ 1, 65_535]);
        }
    }
    Journaling::new(&words, &lent.journal)
}

/// A head that does not fit its journal, or a strange one that does.
fn strange_head(random: &mut Random, head: &Head, words: usize) -> Head {
    let mut head = *head;
    let most = (words / 3) as u32;
    match random.below(6) {
        0 => head.length = most + 1 + random.below(2) as u32,
        1 => head.length = *random.one_of(&[u32::MAX, u32::MAX - 1, u32::MAX / 3 + 1]),
        2 => head.length = random.below(most as usize + 1) as u32,
        3 => head.checkpoints[random.below(CHECKPOINTS)] = head.length.saturating_add(1),
        4 => head.checkpoints[random.below(CHECKPOINTS)] = *random.one_of(&[UNSET - 1, UNSET, 0, head.length]),
        _ => head.checkpoints[15] = random.below(most as usize + 2) as u32,
    }
    head
}

/// Any call on any state; the head that it returns.
fn any_call(random: &mut Random, met: &mut Met, lent: &mut Journaling, head: Head) -> Head {
    let plan = lent.plan();
    match random.below(8) {
        0 | 1 => {
            let number = checkpoint(random, &head);
            lent.go_back(met, head, number).head
        }
        2 => {
            let number = checkpoint(random, &head);
            lent.set_checkpoint(met, head, number).head
        }
        3 | 4 => {
            let tape = tape(random, &plan);
            lent.play(met, head, &tape).head
        }
        _ => {
            let command = command(random, &plan);
            lent.change(met, head, &command).head
        }
    }
}

/// A faithful sequence, and then calls on what others have written.
pub fn spoilt(random: &mut Random, met: &mut Met) {
    let Sequence { mut lent, mut head, .. } = faithful(random, met);
    for _ in 0..CALLS / 2 {
        let strange = strange_head(random, &head, lent.journal.len());
        match random.below(7) {
            0 | 1 => spoil_entry(random, &mut lent, &head),
            2 => foreign_change(random, &mut lent),
            3 => {
                any_call(random, met, &mut lent, strange);
            }
            // a head that fits, and is of another history
            4 if fits(&strange, lent.journal.len()) && random.once_in(3) => head = strange,
            5 => {
                let given = *random.one_of(&[head, strange]);
                let mut damaged = damaged(random, &lent);
                any_call(random, met, &mut damaged, given);
            }
            _ => {}
        }
        head = any_call(random, met, &mut lent, head);
    }
}

// FULL JOURNALS

/// A ring and a tape's ring on journals that are too short for all entries, exact, and longer by some words.
pub fn short_journals(random: &mut Random, met: &mut Met) {
    let grid = plans::Grid::new(3 + random.below(4), 3 + random.below(4), MAX_CAPACITY);
    let ring = grid.ring((1, 1), (1, 1));
    let crossings = ring.len() / 2;
    let command = Command::Ring(ring);
    let mut tape = write(&Command::Report);
    tape.extend(write(&command));
    for words in 3 * crossings - 3..=3 * crossings + 3 {
        let expected = if words < 3 * crossings { 18 } else { 0 };
        let mut by_ring = Sequence::new(&grid.plan, &vec![9; words]);
        assert_eq!(by_ring.change(met, &command), expected, "a ring of {crossings} into {words} words");
        let mut by_tape = Sequence::new(&grid.plan, &vec![9; words]);
        assert_eq!(by_tape.play(met, &tape), expected, "a tape's ring of {crossings} into {words} words");
        assert_eq!(by_ring.head, by_tape.head, "a ring and a tape's ring");
    }
}

/// A tape of a full table into a journal that it fills to the last word, or misses it by one; and back over it all.
pub fn full(random: &mut Random, met: &mut Met) {
    let plan = match random.below(2) {
        0 => plans::Grid::new(32, 33, MAX_CAPACITY).plan,
        _ => plans::one_orbit(MAX_CAPACITY, MAX_CAPACITY, true),
    };
    let tape = plan.tape();
    let entries = commands(&tape).map_or(0, |commands| commands.len());
    let missing = random.below(2);
    let mut sequence = Sequence::new(&Plan::empty(MAX_CAPACITY), &vec![9; 3 * entries - missing]);
    sequence.set(met, 15);
    assert_eq!(sequence.play(met, &tape), if missing == 0 { 0 } else { 18 }, "{entries} entries");
    assert_eq!(sequence.head.length as usize, entries - missing, "an entry for each command");
    sequence.go_back(met, 15);
}

/// A tape that is too long, before a bent table and a head that does not fit; and one that is not.
pub fn long_tapes(met: &mut Met) {
    let unfit = Head { length: 3, ..Head::empty() };
    for table in [[0; 4], [1, 1, 1, 2]] {
        for head in [Head::empty(), unfit] {
            for bytes in [MAX_TAPE, MAX_TAPE + 1] {
                Journaling::new(&table, &[9; 8]).play(met, head, &vec![7; bytes]);
            }
        }
    }
}

/// Around the greatest length, on a journal that has words for more. What is expected stands here, since the second
/// implementation has no such memory. False where the system lends no address space of that size.
pub fn greatest_length() -> bool {
    let Some(mut journal) = Guarded::zeros(3 * UNSET as usize) else { return false };
    let mut table = plans::one_orbit(2, 8, false).to_words();
    let head = |length: u32| Head { length, ..Head::empty() };
    let greatest = UNSET - 1;

    let unfit = kernel::put(&mut table, &mut journal, head(UNSET), 3);
    assert_eq!((unfit.number, unfit.head), (17, head(UNSET)), "a length that is an unset checkpoint");
    let full = kernel::put(&mut table, &mut journal, head(greatest), 3);
    assert_eq!((full.number, full.head), (18, head(greatest)), "no entry past the greatest length");
    let tape = kernel::play(&mut table, &mut journal, head(greatest - 1), &[1, 3, 0, 7, 1, 4, 0]);
    assert_eq!((tape.number, tape.accepted, tape.head), (18, 2, head(greatest)), "a run up to the greatest length");
    assert_eq!(journal[3 * (greatest as usize - 1)..], [1, 3, 0, 0, 0, 0], "the last entry");

    let set = kernel::set_checkpoint(&journal, tape.head, 15);
    assert_eq!((set.number, set.head.checkpoints[15]), (0, greatest), "a checkpoint at the greatest length");
    let still = kernel::go_back(&mut table, &journal, set.head, 15);
    assert_eq!((still.number, still.undone, still.head), (0, 0, set.head), "no way back");
    let mut from_start = set.head;
    from_start.checkpoints[0] = 0;
    let stopped = kernel::go_back(&mut table, &journal, from_start, 0);
    assert_eq!((stopped.number, stopped.undone, stopped.head.length), (17, 1, greatest - 1), "zeros are no change");
    assert_eq!(stopped.head.checkpoints[15], UNSET, "a checkpoint past the new length");
    assert_eq!(table, plans::one_orbit(2, 8, false).to_words(), "the put is undone");

    ring_at_greatest_length(&mut journal);
    true
}

/// A ring of two crossings needs two entries.
fn ring_at_greatest_length(journal: &mut [u16]) {
    let square = plans::Grid::new(2, 2, 8);
    let ring: Vec<u16> = square.ring((0, 0), (0, 0)).iter().map(|&t| t as u16).collect();
    let head = |length: u32| Head { length, ..Head::empty() };
    let mut table = square.plan.to_words();
    let full = kernel::ring_cut(&mut table, journal, head(UNSET - 2), &ring);
    assert_eq!((full.number, full.head), (18, head(UNSET - 2)), "room for one entry of two");
    assert_eq!(table, square.plan.to_words(), "a refused ring");
    let cut = kernel::ring_cut(&mut table, journal, head(UNSET - 3), &ring);
    assert_eq!((cut.number, cut.head), (0, head(UNSET - 1)), "room for two entries");
}
