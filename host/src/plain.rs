//! The kernel's algorithms once more in plain, safe Rust, written to be fast: what the benchmark measures the kernel
//! against. Nothing here is proved, and the compiler puts in the checks that the kernel's proofs make needless.

use crate::binding::{Answer, Needs, Run, Totals};

pub mod journal;

const MAX_WORDS: usize = 16_384;
const MAX_TAPE: usize = 65_536;

/// Word 0 of a tie, 2 of a cell: the follower; the predecessor stands behind it.
#[derive(Clone, Copy, PartialEq)]
pub enum Dimension {
    Tie = 0,
    Cell = 2,
}

fn at(tab: u16) -> usize {
    4 * (tab as usize - 1)
}

// SOUNDNESS

fn is_sound(table: &[u16]) -> bool {
    let capacity = table.len() / 4;
    let is_number = |x: u16| x != 0 && x as usize <= capacity;
    table.chunks_exact(4).zip(1u16..).all(|(row, tab)| {
        if row[0] == 0 {
            row[1] == 0 && row[2] == 0 && row[3] == 0
        } else {
            is_number(row[0]) && is_number(row[2]) && table[at(row[0]) + 1] == tab && table[at(row[2]) + 3] == tab
        }
    })
}

pub fn table_refusal(table: &[u16]) -> u8 {
    if table.len() % 4 != 0 || table.len() > MAX_WORDS {
        1
    } else if is_sound(table) {
        0
    } else {
        2
    }
}

// PARTS

fn tie_step(table: &[u16], tab: u16) -> u16 {
    table[at(tab)]
}

fn cell_step(table: &[u16], tab: u16) -> u16 {
    table[at(tab) + 2]
}

fn gap_step(table: &[u16], tab: u16) -> u16 {
    table[at(table[at(tab) + 1]) + 3]
}

fn mark_orbit(table: &[u16], step: impl Fn(&[u16], u16) -> u16, tab: u16, value: u16, marks: &mut [u16]) {
    let mut x = tab;
    loop {
        marks[x as usize - 1] = value;
        x = step(table, x);
        if x == tab {
            return;
        }
    }
}

/// Marks every orbit with its smallest tab; how many there are.
fn mark_orbits(table: &[u16], step: impl Fn(&[u16], u16) -> u16 + Copy, marks: &mut [u16]) -> u32 {
    let mut count = 0;
    for tab in 1..=(table.len() / 4) as u16 {
        if table[at(tab)] != 0 && marks[tab as usize - 1] == 0 {
            mark_orbit(table, step, tab, tab, marks);
            count += 1;
        }
    }
    count
}

/// The orbits of the tabs that are marked with `value`, and with the next number afterwards.
fn count_orbits(table: &[u16], step: impl Fn(&[u16], u16) -> u16 + Copy, value: u16, marks: &mut [u16]) -> u32 {
    let mut count = 0;
    for tab in 1..=(table.len() / 4) as u16 {
        if marks[tab as usize - 1] == value {
            mark_orbit(table, step, tab, value + 1, marks);
            count += 1;
        }
    }
    count
}

/// The ties of the tabs that are marked with `value`. A tie of at most two tabs, whose follower is its predecessor, is
/// counted at its smaller tab, without a mark.
fn count_ties(table: &[u16], value: u16, marks: &mut [u16]) -> u32 {
    let mut count = 0;
    for tab in 1..=(table.len() / 4) as u16 {
        if marks[tab as usize - 1] != value {
            continue;
        }
        let row = &table[at(tab)..at(tab) + 2];
        if row[0] == row[1] {
            count += (tab <= row[0]) as u32;
        } else {
            mark_orbit(table, tie_step, tab, value + 1, marks);
            count += 1;
        }
    }
    count
}

/// Marks the gap of a tab, and puts the tie predecessors of its tabs into the queue; the queue's length afterwards.
fn enter(table: &[u16], tab: u16, value: u16, marks: &mut [u16], queue: &mut [u16], mut tail: usize) -> usize {
    let mut x = tab;
    loop {
        marks[x as usize - 1] = value;
        let back = table[at(x) + 1];
        queue[tail] = back;
        tail += 1;
        x = table[at(back) + 3];
        if x == tab {
            return tail;
        }
    }
}

/// Marks the piece of a tab, gap by gap; how many gaps it has.
fn flood(table: &[u16], tab: u16, value: u16, marks: &mut [u16], queue: &mut [u16]) -> u32 {
    let mut tail = enter(table, tab, value, marks, queue, 0);
    let (mut head, mut gaps) = (0, 1);
    while head < tail {
        let next = queue[head];
        if marks[next as usize - 1] == 0 {
            tail = enter(table, next, value, marks, queue, tail);
            gaps += 1;
        }
        head += 1;
    }
    gaps
}

fn lifts_of_piece(table: &[u16], tab: u16) -> u32 {
    (tie_step(table, tab) != tab || cell_step(table, tab) != tab) as u32
}

/// The numbers of the tabs that are marked with 1.
fn marked_counts(table: &[u16], marks: &mut [u16], pieces: u32, lifts: u32, gaps: u32) -> Totals {
    let tabs = marks.iter().filter(|&&mark| mark == 1).count() as u32;
    let cells = count_orbits(table, cell_step, 1, marks);
    let ties = count_ties(table, 2, marks);
    let characteristic = cells as i32 + ties as i32 + gaps as i32 - tabs as i32;
    let handles = ((2 * pieces as i32 - characteristic) / 2) as u32;
    Totals {
        number: 0,
        darts: tabs,
        edges: ties,
        vertices: cells,
        faces: gaps,
        components: pieces,
        characteristic,
        genus: handles,
        lifts,
    }
}

/// A tab number from `tab` on, with marks at all before it: four at a time, as long as that goes.
fn skip_marked(marks: &[u16], mut tab: usize, capacity: usize) -> usize {
    while tab + 3 <= capacity && marks[tab - 1..tab + 3].iter().all(|&mark| mark != 0) {
        tab += 4;
    }
    tab
}

fn counts(table: &[u16]) -> Totals {
    let (mut marks, mut queue) = ([0u16; 4096], [0u16; 4096]);
    let (mut pieces, mut lifts, mut gaps) = (0, 0, 0);
    let capacity = table.len() / 4;
    let mut tab = 1;
    while tab <= capacity {
        let mut next = tab + 1;
        if marks[tab - 1] == 0 && table[4 * (tab - 1)] != 0 {
            gaps += flood(table, tab as u16, 1, &mut marks, &mut queue);
            lifts += lifts_of_piece(table, tab as u16);
            pieces += 1;
            next = skip_marked(&marks, next, capacity);
        }
        tab = next;
    }
    marked_counts(table, &mut marks, pieces, lifts, gaps)
}

fn piece_counts(table: &[u16], tab: u16) -> Totals {
    let (mut marks, mut queue) = ([0u16; 4096], [0u16; 4096]);
    let gaps = flood(table, tab, 1, &mut marks, &mut queue);
    marked_counts(table, &mut marks, 1, lifts_of_piece(table, tab), gaps)
}

pub fn report(table: &[u16]) -> Totals {
    match table_refusal(table) {
        0 => counts(table),
        number => Totals { number, ..Totals::default() },
    }
}

fn question_refusal(table: &[u16], tab: u16) -> u8 {
    match table_refusal(table) {
        0 => presence(table, &[tab]),
        refusal => refusal,
    }
}

pub fn piece_report(table: &[u16], tab: u16) -> Totals {
    match question_refusal(table, tab) {
        0 => piece_counts(table, tab),
        number => Totals { number, ..Totals::default() },
    }
}

/// The gap of a tab into a buffer: counted first, so that a short one stays as it was.
fn write_gap(table: &[u16], tab: u16, out: &mut [u16]) -> Answer {
    let mut count = 0;
    let mut x = tab;
    loop {
        x = gap_step(table, x);
        count += 1;
        if x == tab {
            break;
        }
    }
    if out.len() < count {
        return Answer { number: 14, ..Answer::default() };
    }
    for word in &mut out[..count] {
        *word = x;
        x = gap_step(table, x);
    }
    Answer { number: 0, yes: false, count: count as u32 }
}

pub fn gap_round(table: &[u16], tab: u16, out: &mut [u16]) -> Answer {
    match question_refusal(table, tab) {
        0 => write_gap(table, tab, out),
        number => Answer { number, ..Answer::default() },
    }
}

// COMMANDS on a sound table

fn is_present(table: &[u16], tab: u16) -> bool {
    table[at(tab)] != 0
}

fn presence(table: &[u16], tabs: &[u16]) -> u8 {
    let capacity = table.len() / 4;
    if tabs.iter().any(|&t| t == 0 || t as usize > capacity) {
        3
    } else if tabs.iter().any(|&t| !is_present(table, t)) {
        4
    } else {
        0
    }
}

/// How far the second tab is from the first round an orbit. A walk goes forward from the first and one back from the
/// second, a step each in turn; if either comes home before they meet, the tabs are in different orbits, so that the
/// shorter orbit is the cost.
fn distance(next: impl Fn(u16) -> u16, back: impl Fn(u16) -> u16, a: u16, b: u16) -> Option<u16> {
    let (mut x, mut y, mut steps) = (a, b, 0);
    loop {
        if x == y {
            return Some(steps);
        }
        y = back(y);
        if y == b {
            return None;
        }
        if x == y {
            return Some(steps + 1);
        }
        x = next(x);
        if x == a {
            return None;
        }
        steps += 2;
    }
}

fn together(table: &[u16], dimension: Dimension, a: u16, b: u16) -> bool {
    let word = |place: usize| move |x: u16| table[at(x) + place];
    distance(word(dimension as usize), word(dimension as usize + 1), a, b).is_some()
}

/// Whether two tabs share an orbit, by the walk that asks how far they are apart.
fn same(table: &[u16], a: u16, b: u16, walk: impl FnOnce() -> Option<u16>) -> Answer {
    let number = match table_refusal(table) {
        0 => presence(table, &[a, b]),
        refusal => refusal,
    };
    if number != 0 {
        return Answer { number, ..Answer::default() };
    }
    let steps = walk();
    Answer { number: 0, yes: steps.is_some(), count: u32::from(steps.unwrap_or(0)) }
}

pub fn same_tie(table: &[u16], a: u16, b: u16) -> Answer {
    same(table, a, b, || distance(|x| table[at(x)], |x| table[at(x) + 1], a, b))
}

/// The count of this answer is 0.
pub fn same_gap(table: &[u16], a: u16, b: u16) -> Answer {
    let back = |x: u16| tie_step(table, cell_step(table, x));
    same(table, a, b, || distance(|x| gap_step(table, x), back, a, b).map(|_| 0))
}

fn swap(table: &mut [u16], dimension: Dimension, a: u16, b: u16) {
    let next = dimension as usize;
    let (before_a, before_b) = (table[at(a) + next + 1], table[at(b) + next + 1]);
    table[at(a) + next + 1] = before_b;
    table[at(b) + next + 1] = before_a;
    table[at(before_b) + next] = a;
    table[at(before_a) + next] = b;
}

fn set_all(table: &mut [u16], tab: u16, word: u16) {
    table[at(tab)..at(tab) + 4].fill(word);
}

fn put_refusal(table: &[u16], tab: u16) -> u8 {
    if tab == 0 || tab as usize > table.len() / 4 {
        3
    } else if is_present(table, tab) {
        5
    } else {
        0
    }
}

fn take_out_refusal(table: &[u16], tab: u16) -> u8 {
    match presence(table, &[tab]) {
        0 if tie_step(table, tab) != tab || cell_step(table, tab) != tab => 6,
        refusal => refusal,
    }
}

fn join_refusal(table: &[u16], dimension: Dimension, a: u16, b: u16) -> u8 {
    match presence(table, &[a, b]) {
        0 if together(table, dimension, a, b) => 7,
        refusal => refusal,
    }
}

fn cut_refusal(table: &[u16], dimension: Dimension, a: u16, b: u16) -> u8 {
    match presence(table, &[a, b]) {
        0 if !together(table, dimension, a, b) => 8,
        0 if a == b => 9,
        refusal => refusal,
    }
}

fn put_on(table: &mut [u16], tab: u16) -> u8 {
    let refusal = put_refusal(table, tab);
    if refusal == 0 {
        set_all(table, tab, tab);
    }
    refusal
}

fn take_out_on(table: &mut [u16], tab: u16) -> u8 {
    let refusal = take_out_refusal(table, tab);
    if refusal == 0 {
        set_all(table, tab, 0);
    }
    refusal
}

fn join_on(table: &mut [u16], dimension: Dimension, a: u16, b: u16) -> u8 {
    let refusal = join_refusal(table, dimension, a, b);
    if refusal == 0 {
        swap(table, dimension, a, b);
    }
    refusal
}

fn cut_on(table: &mut [u16], dimension: Dimension, a: u16, b: u16) -> u8 {
    let refusal = cut_refusal(table, dimension, a, b);
    if refusal == 0 {
        swap(table, dimension, a, b);
    }
    refusal
}

pub fn put(table: &mut [u16], tab: u16) -> u8 {
    match table_refusal(table) {
        0 => put_on(table, tab),
        refusal => refusal,
    }
}

pub fn join(table: &mut [u16], dimension: Dimension, a: u16, b: u16) -> u8 {
    match table_refusal(table) {
        0 => join_on(table, dimension, a, b),
        refusal => refusal,
    }
}

// RINGS

fn mark_firsts(table: &[u16], step: impl Fn(&[u16], u16) -> u16 + Copy, ring: &[u16], marks: &mut [u16]) -> bool {
    let mut apart = true;
    for pair in ring.chunks_exact(2) {
        if marks[pair[0] as usize - 1] == 0 {
            mark_orbit(table, step, pair[0], pair[0], marks);
        } else {
            apart = false;
        }
    }
    apart
}

fn ring_refusal(table: &[u16], ring: &[u16]) -> u8 {
    if ring.is_empty() || ring.len() % 2 != 0 || ring.len() > 4096 {
        return 10;
    }
    let refusal = presence(table, ring);
    if refusal != 0 {
        return refusal;
    }
    let mark = |marks: &[u16], tab: u16| marks[tab as usize - 1];
    let mut ties = [0; 4096];
    let ties_apart = mark_firsts(table, tie_step, ring, &mut ties);
    if ring.chunks_exact(2).any(|pair| mark(&ties, pair[0]) != mark(&ties, pair[1])) {
        return 8;
    }
    if ring.chunks_exact(2).any(|pair| pair[0] == pair[1]) {
        return 9;
    }
    if !ties_apart {
        return 11;
    }
    let mut gaps = [0; 4096];
    if !mark_firsts(table, gap_step, ring, &mut gaps) {
        return 12;
    }
    let firsts = ring.iter().step_by(2).skip(1).chain([&ring[0]]);
    if ring.iter().skip(1).step_by(2).zip(firsts).any(|(&second, &first)| mark(&gaps, second) != first) {
        return 13;
    }
    0
}

fn cut_all(table: &mut [u16], ring: &[u16]) {
    for pair in ring.chunks_exact(2) {
        swap(table, Dimension::Tie, pair[0], pair[1]);
    }
}

fn ring_cut_on(table: &mut [u16], ring: &[u16]) -> u8 {
    let refusal = ring_refusal(table, ring);
    if refusal == 0 {
        cut_all(table, ring);
    }
    refusal
}

pub fn ring_cut(table: &mut [u16], ring: &[u16]) -> u8 {
    match table_refusal(table) {
        0 => ring_cut_on(table, ring),
        refusal => refusal,
    }
}

// TAPES

const OPERAND_BYTES: [u8; 9] = [0, 2, 2, 4, 4, 4, 4, 0, 1];

fn number_at(tape: &[u8], i: usize) -> u16 {
    u16::from_le_bytes([tape[i], tape[i + 1]])
}

fn command_size(tape: &[u8]) -> Result<usize, u8> {
    let byte = tape[0] as usize;
    if byte == 0 || byte >= OPERAND_BYTES.len() {
        return Err(15);
    }
    let mut size = 1 + OPERAND_BYTES[byte] as usize;
    if byte == 8 {
        size += 4 * tape.get(1).map_or(0, |&count| count as usize);
    }
    if tape.len() < size {
        Err(16)
    } else {
        Ok(size)
    }
}

/// The words of a ring's list on a tape.
fn ring_at<'a>(tape: &[u8], words: &'a mut [u16; 510]) -> &'a [u16] {
    let list = &mut words[..2 * tape[1] as usize];
    for (word, pair) in list.iter_mut().zip(tape[2..].chunks_exact(2)) {
        *word = u16::from_le_bytes([pair[0], pair[1]]);
    }
    list
}

fn ring_on_tape(table: &mut [u16], tape: &[u8]) -> u8 {
    ring_cut_on(table, ring_at(tape, &mut [0; 510]))
}

/// Carries out the first command of a tape: its refusal, or 0, and its bytes. A size is judged in the command's own
/// arm, where it is a constant.
fn perform(table: &mut [u16], tape: &[u8]) -> (u8, usize) {
    match tape[0] {
        1 if tape.len() >= 3 => (put_on(table, number_at(tape, 1)), 3),
        2 if tape.len() >= 3 => (take_out_on(table, number_at(tape, 1)), 3),
        3 if tape.len() >= 5 => (join_on(table, Dimension::Tie, number_at(tape, 1), number_at(tape, 3)), 5),
        4 if tape.len() >= 5 => (cut_on(table, Dimension::Tie, number_at(tape, 1), number_at(tape, 3)), 5),
        5 if tape.len() >= 5 => (join_on(table, Dimension::Cell, number_at(tape, 1), number_at(tape, 3)), 5),
        6 if tape.len() >= 5 => (cut_on(table, Dimension::Cell, number_at(tape, 1), number_at(tape, 3)), 5),
        7 => (0, 1),
        _ => match command_size(tape) {
            Ok(size) => (ring_on_tape(table, tape), size),
            Err(number) => (number, 0),
        },
    }
}

fn run(table: &mut [u16], tape: &[u8]) -> Run {
    let (mut rest, mut accepted) = (tape, 0);
    while !rest.is_empty() {
        let (number, size) = perform(table, rest);
        if number != 0 {
            return Run { number, accepted };
        }
        accepted += 1;
        rest = &rest[size..];
    }
    Run { number: 0, accepted }
}

pub fn play(table: &mut [u16], tape: &[u8]) -> Run {
    if tape.len() > MAX_TAPE {
        return Run { number: 1, accepted: 0 };
    }
    match table_refusal(table) {
        0 => run(table, tape),
        number => Run { number, accepted: 0 },
    }
}

fn greatest(tape: &[u8], numbers: usize, from: usize) -> u16 {
    let bytes = &tape[from..from + 2 * numbers];
    bytes.chunks_exact(2).map(|pair| u16::from_le_bytes([pair[0], pair[1]])).max().unwrap_or(0)
}

pub fn tape_needs(tape: &[u8]) -> Needs {
    if tape.len() > MAX_TAPE {
        return Needs { number: 1, ..Needs::default() };
    }
    let mut needs = Needs::default();
    let mut balance = 0i32;
    let mut highest = 0i32;
    let mut rest = tape;
    while !rest.is_empty() {
        let size = match command_size(rest) {
            Ok(size) => size,
            Err(number) => return Needs { number, ..Needs::default() },
        };
        let (named, changes) = match rest[0] {
            1 | 2 => (number_at(rest, 1), 1),
            7 => (0, 0),
            8 => (greatest(rest, 2 * rest[1] as usize, 2), u32::from(rest[1])),
            _ => (number_at(rest, 1).max(number_at(rest, 3)), 1),
        };
        match rest[0] {
            1 => balance += 1,
            2 => balance -= 1,
            _ => {}
        }
        highest = highest.max(balance);
        needs.capacity = needs.capacity.max(u32::from(named));
        needs.commands += 1;
        needs.words += 4 * changes;
        rest = &rest[size..];
    }
    needs.peak = highest as u32;
    needs
}

fn write_joins(
    table: &[u16],
    step: impl Fn(&[u16], u16) -> u16,
    code: u8,
    marks: &[u16],
    out: &mut [u8],
    from: usize,
) -> usize {
    let mut place = from;
    for tab in 1..=(table.len() / 4) as u16 {
        if marks[tab as usize - 1] != tab {
            continue;
        }
        let mut next = step(table, tab);
        while next != tab {
            let command = &mut out[place..place + 5];
            command[0] = code;
            command[1..3].copy_from_slice(&tab.to_le_bytes());
            command[3..5].copy_from_slice(&next.to_le_bytes());
            place += 5;
            next = step(table, next);
        }
    }
    place
}

fn write_on(table: &[u16], out: &mut [u8]) -> Answer {
    let (mut tie_marks, mut cell_marks) = ([0; 4096], [0; 4096]);
    let tabs = table.chunks_exact(4).filter(|row| row[0] != 0).count();
    let ties = mark_orbits(table, tie_step, &mut tie_marks) as usize;
    let cells = mark_orbits(table, cell_step, &mut cell_marks) as usize;
    let size = 13 * tabs - 5 * (ties + cells);
    if out.len() < size {
        return Answer { number: 14, ..Answer::default() };
    }
    let mut place = 0;
    for tab in 1..=(table.len() / 4) as u16 {
        if is_present(table, tab) {
            let command = &mut out[place..place + 3];
            command[0] = 1;
            command[1..3].copy_from_slice(&tab.to_le_bytes());
            place += 3;
        }
    }
    place = write_joins(table, tie_step, 3, &tie_marks, out, place);
    write_joins(table, cell_step, 5, &cell_marks, out, place);
    Answer { number: 0, yes: false, count: size as u32 }
}

pub fn write_tape(table: &[u16], out: &mut [u8]) -> Answer {
    match table_refusal(table) {
        0 => write_on(table, out),
        number => Answer { number, ..Answer::default() },
    }
}

pub fn screen(tape: &[u8], out: &mut [u8]) -> u8 {
    if tape.len() > MAX_TAPE {
        return 1;
    }
    if out.len() < 53_278 {
        return 14;
    }
    let mut table = [0u16; MAX_WORDS];
    let run = run(&mut table, tape);
    let c = counts(&table);
    let numbers = [
        u32::from(run.number),
        run.accepted,
        c.darts,
        c.edges,
        c.vertices,
        c.faces,
        c.components,
        c.characteristic as u32,
        c.genus,
        c.lifts,
    ];
    for (four, number) in out.chunks_exact_mut(4).zip(numbers) {
        four.copy_from_slice(&number.to_le_bytes());
    }
    write_on(&table, &mut out[40..]);
    0
}
