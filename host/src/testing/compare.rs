//! Calls of the kernel and of the second implementation side by side. What is lent stands flush against a closed page,
//! and every lent word is compared afterwards. A difference ends the program with both sides.

use crate::binding::{self, Answer, Run, Totals};
use crate::commands::{Command, Dimension, Tab, MAX_TAPE};
use crate::testing::guarded::Guarded;
use crate::testing::needs;
use crate::testing::second::{self, Part, Plan};
use std::fmt::Debug;

pub mod journal;

/// What was met: how often each refusal, 0 for what was accepted; rings that were cut, and rounds; plans with handles,
/// and plans of which some pieces are lifted and others, of one tab, are not; rings in a flat piece beside one with
/// handles.
#[derive(Default)]
pub struct Met {
    pub refusals: [u64; 20],
    pub calls: u64,
    pub rings: u64,
    pub longest_ring: usize,
    pub longest_round: usize,
    /// Questions about two tabs that share no part.
    pub apart: u64,
    pub longest_distance: usize,
    pub with_handles: u64,
    pub partly_lifted: u64,
    pub rings_beside_handles: u64,
    /// Runs that went as their tape's needs said.
    pub foretold: u64,
    /// What calls on journals met.
    pub journal: journal::Places,
}

/// How far the second tab is from the first in a part that they share; 0 in a gap or a piece.
fn shared(plan: &Plan, part: Part, a: Tab, b: Tab) -> Option<usize> {
    match part {
        Part::Tie => plan.distance(Dimension::Tie, a, b),
        Part::Cell => plan.distance(Dimension::Cell, a, b),
        Part::Gap | Part::Piece => plan.part(part, a).contains(&b).then_some(0),
    }
}

impl Met {
    fn note(&mut self, number: u8) {
        self.refusals[usize::from(number)] += 1;
        self.calls += 1;
    }
}

/// A table lent to the kernel, and what it should hold.
pub struct Lent {
    pub words: Guarded<u16>,
    /// The plan, or the refusal that the table gets.
    pub plan: Result<Plan, u8>,
}

fn totals(plan: &Plan) -> Totals {
    let r = plan.report();
    Totals {
        number: 0,
        darts: r.tabs as u32,
        edges: r.ties as u32,
        vertices: r.cells as u32,
        faces: r.gaps as u32,
        components: r.pieces as u32,
        characteristic: r.characteristic as i32,
        genus: r.handles as u32,
        lifts: r.lifts as u32,
    }
}

fn refused(number: u8) -> Answer {
    Answer { number, ..Answer::default() }
}

/// A list into a buffer: the answer, and the buffer afterwards.
fn listed<T: Copy>(refusal: u8, list: &[T], out: &[T]) -> (Answer, Vec<T>) {
    let number = if refusal == 0 && out.len() < list.len() { 14 } else { refusal };
    if number != 0 {
        return (refused(number), out.to_vec());
    }
    let mut after = list.to_vec();
    after.extend_from_slice(&out[list.len()..]);
    (Answer { number: 0, yes: false, count: list.len() as u32 }, after)
}

impl Lent {
    pub fn new(words: &[u16]) -> Lent {
        Lent { words: Guarded::new(words), plan: Plan::from_words(words) }
    }

    pub fn of(plan: &Plan) -> Lent {
        Lent::new(&plan.to_words())
    }

    fn refusal(&self) -> u8 {
        match self.plan {
            Ok(_) => 0,
            Err(number) => number,
        }
    }

    /// The plan; the empty one where the table is refused.
    pub fn plan(&self) -> Plan {
        self.plan.clone().unwrap_or_default()
    }

    fn question_refusal(&self, tabs: &[Tab]) -> u8 {
        match &self.plan {
            Ok(plan) => plan.question_refusal(tabs),
            Err(number) => *number,
        }
    }

    fn unchanged_or(&self, before: &[u16], what: &str) {
        match &self.plan {
            Ok(plan) => assert_eq!(&self.words[..], &plan.to_words()[..], "words after {what}"),
            Err(_) => assert_eq!(&self.words[..], before, "words after {what}, refused"),
        }
    }

    pub fn command(&mut self, met: &mut Met, command: &Command) -> u8 {
        let before = self.words.to_vec();
        let ring: Vec<u16> = match command {
            Command::Ring(tabs) => tabs.iter().map(|&t| t as u16).collect(),
            _ => vec![],
        };
        let ring = Guarded::new(&ring);
        let table = &mut self.words;
        let number = match *command {
            Command::Put(t) => binding::put(table, t),
            Command::TakeOut(t) => binding::take_out(table, t),
            Command::Join(Dimension::Tie, a, b) => binding::edge_join(table, a, b),
            Command::Join(Dimension::Cell, a, b) => binding::vertex_join(table, a, b),
            Command::Cut(Dimension::Tie, a, b) => binding::edge_cut(table, a, b),
            Command::Cut(Dimension::Cell, a, b) => binding::vertex_cut(table, a, b),
            Command::Ring(_) => binding::ring_cut(table, &ring),
            Command::Report => binding::report(table).number,
        };
        let expected = match &mut self.plan {
            Ok(plan) => plan.apply(command),
            Err(number) => *number,
        };
        assert_eq!(number, expected, "refusal of {command:?} on {before:?}");
        self.unchanged_or(&before, &format!("{command:?}"));
        met.note(number);
        if let (Command::Ring(words), 0) = (command, number) {
            met.rings += 1;
            met.longest_ring = met.longest_ring.max(words.len() / 2);
        }
        number
    }

    /// Asks a question, which must leave the table as it was.
    fn ask<R>(&self, what: &str, question: impl FnOnce(&[u16]) -> R) -> R {
        let before = self.words.to_vec();
        let answer = question(&self.words);
        assert_eq!(&self.words[..], &before[..], "words after {what}");
        answer
    }

    pub fn report(&self, met: &mut Met) {
        let expected = match &self.plan {
            Ok(plan) => totals(plan),
            Err(number) => Totals { number: *number, ..Totals::default() },
        };
        assert_eq!(self.ask("a report", binding::report), expected, "report of {:?}", &self.words[..]);
        met.note(expected.number);
        met.with_handles += u64::from(expected.genus > 0);
        met.partly_lifted += u64::from(0 < expected.lifts && expected.lifts < expected.components);
    }

    /// The report of one tab's piece.
    pub fn component_report(&self, met: &mut Met, tab: Tab) -> Totals {
        let expected = match self.question_refusal(&[tab]) {
            0 => totals(&self.plan().piece_alone(tab)),
            number => Totals { number, ..Totals::default() },
        };
        let answer = self.ask("a piece's report", |words| binding::component_report(words, tab));
        assert_eq!(answer, expected, "report of the piece of {tab} in {:?}", &self.words[..]);
        met.note(answer.number);
        answer
    }

    /// The reports of all pieces, each by its smallest tab, add up to the plan's.
    pub fn component_reports(&self, met: &mut Met) {
        let plan = self.plan();
        let mut sum = Totals { number: self.refusal(), ..Totals::default() };
        for piece in plan.parts(Part::Piece) {
            let t = self.component_report(met, *piece.first().expect("a piece has a tab"));
            assert_eq!(t.vertices + t.edges + t.faces + 2 * t.genus, 2 + t.darts, "Euler's formula of a piece");
            sum.darts += t.darts;
            sum.edges += t.edges;
            sum.vertices += t.vertices;
            sum.faces += t.faces;
            sum.components += t.components;
            sum.characteristic += t.characteristic;
            sum.genus += t.genus;
            sum.lifts += t.lifts;
        }
        assert_eq!(binding::report(&self.words), sum, "the pieces of {:?}", &self.words[..]);
    }

    pub fn same(&self, met: &mut Met, part: Part, a: Tab, b: Tab) {
        let answer = self.ask("same", |words| match part {
            Part::Tie => binding::same_edge(words, a, b),
            Part::Cell => binding::same_vertex(words, a, b),
            Part::Gap => binding::same_face(words, a, b),
            Part::Piece => binding::same_component(words, a, b),
        });
        let number = self.question_refusal(&[a, b]);
        let found = if number == 0 { shared(&self.plan(), part, a, b) } else { None };
        let expected = Answer { number, yes: found.is_some(), count: found.unwrap_or(0) as u32 };
        assert_eq!(answer, expected, "same {part:?} of {a} and {b}");
        met.note(number);
        met.apart += u64::from(number == 0 && found.is_none());
        met.longest_distance = met.longest_distance.max(found.unwrap_or(0));
    }

    /// A question that writes a list into a buffer.
    fn list<T: Copy + PartialEq + Debug>(
        &self,
        met: &mut Met,
        what: &str,
        expected: (u8, &[T]),
        buffer: &[T],
        question: impl FnOnce(&[u16], &mut [T]) -> Answer,
    ) {
        let mut out = Guarded::new(buffer);
        let (expected, after) = listed(expected.0, expected.1, buffer);
        let answer = self.ask(what, |words| question(words, &mut out));
        assert_eq!(answer, expected, "{what} into {}", buffer.len());
        assert_eq!(&out[..], &after[..], "buffer of {what}");
        met.note(expected.number);
    }

    pub fn round(&self, met: &mut Met, part: Part, tab: Tab, room: usize) {
        let refusal = self.question_refusal(&[tab]);
        let list: Vec<u16> = match refusal {
            0 => self.plan().part(part, tab).iter().map(|&t| t as u16).collect(),
            _ => vec![],
        };
        self.list(met, "a round", (refusal, &list), &vec![0xEEEE; room], |words, out| match part {
            Part::Tie => binding::edge_round(words, tab, out),
            Part::Cell => binding::vertex_round(words, tab, out),
            _ => binding::face_round(words, tab, out),
        });
        if refusal == 0 && list.len() <= room {
            met.longest_round = met.longest_round.max(list.len());
        }
    }

    pub fn marks(&self, met: &mut Met, room: usize) {
        let marks = self.plan().marks();
        self.list(met, "marks", (self.refusal(), &marks), &vec![0xEEEE; room], binding::component_marks);
    }

    pub fn write_tape(&self, met: &mut Met, room: usize) {
        let tape = self.plan().tape();
        self.list(met, "a tape", (self.refusal(), &tape), &vec![0xEE; room], binding::write_tape);
    }

    pub fn play(&mut self, met: &mut Met, tape: &[u8]) -> Run {
        let before = self.words.to_vec();
        let lent = Guarded::new(tape);
        let run = binding::play(&mut self.words, &lent);
        let expected = match &mut self.plan {
            _ if tape.len() > MAX_TAPE => Run { number: 1, accepted: 0 },
            Ok(plan) => {
                let run = plan.play(tape);
                Run { number: run.number, accepted: run.accepted }
            }
            Err(number) => Run { number: *number, accepted: 0 },
        };
        assert_eq!(run, expected, "run of {tape:?}");
        assert_eq!(&lent[..], tape, "a tape is only read");
        self.unchanged_or(&before, "a run");
        met.note(run.number);
        run
    }
}

/// What a tape needs; and, if a run from an empty table accepts it whole, what that run goes through.
pub fn tape_needs(met: &mut Met, tape: &[u8], capacity: usize) {
    let lent = Guarded::new(tape);
    let answer = binding::tape_needs(&lent);
    assert_eq!(&lent[..], tape, "a tape is only read");
    let expected = match needs::needs(tape) {
        Ok(n) => binding::Needs { number: 0, capacity: n.capacity, commands: n.commands, peak: n.peak, words: n.words },
        Err(number) => binding::Needs { number, ..binding::Needs::default() },
    };
    assert_eq!(answer, expected, "needs of {tape:?}");
    met.note(answer.number);
    let commands = needs::commands(tape).unwrap_or_default();
    if let (0, Some(run)) = (answer.number, needs::undergone(capacity, &commands)) {
        assert!(answer.capacity as usize <= capacity, "the least capacity of {tape:?}");
        assert_eq!((answer.peak, answer.words), (run.most_tabs, run.changed_words), "a run of {tape:?}");
        met.foretold += 1;
    }
}

pub fn screen(met: &mut Met, tape: &[u8], room: usize) {
    let lent = Guarded::new(tape);
    let mut out = Guarded::new(&vec![0xEE; room]);
    let (expected, after) = second::screen(tape, &out);
    let number = binding::screen(&lent, &mut out);
    assert_eq!(number, expected, "the screen's call on {} bytes into {room}", tape.len());
    assert_eq!(&out[..], &after[..], "the screen's buffer");
    met.note(number);
}
