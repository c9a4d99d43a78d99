//! Explanations, word by word, for every refusal that a run can meet.

use lotskadi_host::explain::culprits::Culprits;
use lotskadi_host::explain::refusals::{self, REFUSALS};
use lotskadi_host::explain::{needs, play};
use lotskadi_host::text::to_tape;

const SQUARE: &str = "\
put 1
put 2
put 3
put 4
tie join 1 2
tie join 3 4
cell join 1 3
cell join 2 4
";

fn explained(text: &str) -> String {
    let (tape, lines) = to_tape(text.as_bytes()).expect("a text");
    play(&tape).in_words(&lines)
}

/// A line behind the square's, and its explanation but for the last line.
const REFUSED: [(&str, &str); 33] = [
    (
        "put 0",
        "refused 3, off the table: command 9, put 0, at byte 32, line 9
A tab number is 0 or above the table's capacity: tab number 0 is off the table of 4,096 tabs.",
    ),
    (
        "tie join 9 4097",
        "refused 3, off the table: command 9, tie join 9 4097, at byte 32, line 9
A tab number is 0 or above the table's capacity: tab number 4097 is off the table of 4,096 tabs.",
    ),
    (
        "ring 5000 1 0 9 5000 2",
        "refused 3, off the table: command 9, ring 5000 1 0 9 5000 2, at byte 32, line 9
A tab number is 0 or above the table's capacity: tab numbers 5000 0 are off the table of 4,096 tabs.",
    ),
    (
        "take out 4096",
        "refused 4, no tab: command 9, take out 4096, at byte 32, line 9
A tab is absent that must be present: tab 4096 is absent.",
    ),
    (
        "tie join 1 9",
        "refused 4, no tab: command 9, tie join 1 9, at byte 32, line 9
A tab is absent that must be present: tab 9 is absent.",
    ),
    (
        "cell cut 9 7",
        "refused 4, no tab: command 9, cell cut 9 7, at byte 32, line 9
A tab is absent that must be present: tabs 9 7 are absent.",
    ),
    (
        "ring 1 2 9 9",
        "refused 4, no tab: command 9, ring 1 2 9 9, at byte 32, line 9
A tab is absent that must be present: tab 9 is absent.",
    ),
    (
        "put 1",
        "refused 5, tab taken: command 9, put 1, at byte 32, line 9
The tab to be put is present: 1 lies in the tie 1 2 and in the cell 1 3.",
    ),
    (
        "take out 4",
        "refused 6, tab held: command 9, take out 4, at byte 32, line 9
The tab to be taken out hangs with others: 4 lies in the tie 4 3 and in the cell 4 2.",
    ),
    (
        "tie join 1 2",
        "refused 7, together: command 9, tie join 1 2, at byte 32, line 9
The two tabs to be joined are in one tie (cell) already: 1 and 2 lie in the tie 1 2, 1 step from 1 to 2.",
    ),
    (
        "cell join 3 1",
        "refused 7, together: command 9, cell join 3 1, at byte 32, line 9
The two tabs to be joined are in one tie (cell) already: 3 and 1 lie in the cell 3 1, 1 step from 3 to 1.",
    ),
    (
        "tie join 2 2",
        "refused 7, together: command 9, tie join 2 2, at byte 32, line 9
The two tabs to be joined are in one tie (cell) already: both are 2, in the tie 2 1.",
    ),
    (
        "cell join 2 2",
        "refused 7, together: command 9, cell join 2 2, at byte 32, line 9
The two tabs to be joined are in one tie (cell) already: both are 2, in the cell 2 4.",
    ),
    (
        "tie cut 1 3",
        "refused 8, apart: command 9, tie cut 1 3, at byte 32, line 9
The two tabs to be cut, or of a crossing, are in different ties (cells): \
1 lies in the tie 1 2, and 3 in the tie 3 4.",
    ),
    (
        "cell cut 4 1",
        "refused 8, apart: command 9, cell cut 4 1, at byte 32, line 9
The two tabs to be cut, or of a crossing, are in different ties (cells): \
4 lies in the cell 4 2, and 1 in the cell 1 3.",
    ),
    (
        "ring 1 2 4 2",
        "refused 8, apart: command 9, ring 1 2 4 2, at byte 32, line 9
The two tabs to be cut, or of a crossing, are in different ties (cells): \
of crossing 2, 4 lies in the tie 4 3, and 2 in the tie 2 1.",
    ),
    (
        "ring 1 3 2 2 4 1",
        "refused 8, apart: command 9, ring 1 3 2 2 4 1, at byte 32, line 9
The two tabs to be cut, or of a crossing, are in different ties (cells):
  of crossing 1, 1 lies in the tie 1 2, and 3 in the tie 3 4
  of crossing 3, 4 lies in the tie 4 3, and 1 in the tie 1 2",
    ),
    (
        "tie cut 1 1",
        "refused 9, same tab: command 9, tie cut 1 1, at byte 32, line 9
A tab is to be cut, or crossed, with itself: both are 1.",
    ),
    (
        "cell cut 2 2",
        "refused 9, same tab: command 9, cell cut 2 2, at byte 32, line 9
A tab is to be cut, or crossed, with itself: both are 2.",
    ),
    (
        "ring 1 2 3 3",
        "refused 9, same tab: command 9, ring 1 2 3 3, at byte 32, line 9
A tab is to be cut, or crossed, with itself: crossing 2 goes from 3 to 3.",
    ),
    (
        "ring 1 1 1 1",
        "refused 9, same tab: command 9, ring 1 1 1 1, at byte 32, line 9
A tab is to be cut, or crossed, with itself:
  crossing 1 goes from 1 to 1
  crossing 2 goes from 1 to 1",
    ),
    (
        "ring",
        "refused 10, no list: command 9, ring, at byte 32, line 9
The ring's list is empty, odd, or has more than 4,096 words: it is empty.",
    ),
    (
        "ring 1 2 3 4 2 1",
        "refused 11, tie twice: command 9, ring 1 2 3 4 2 1, at byte 32, line 9
The ring crosses one tie twice: crossing 1 from 1 to 2 and crossing 3 from 2 to 1 both cross the tie 1 2.",
    ),
    (
        "ring 4 3 3 4 4 3",
        "refused 11, tie twice: command 9, ring 4 3 3 4 4 3, at byte 32, line 9
The ring crosses one tie twice:
  crossing 1 from 4 to 3 and crossing 2 from 3 to 4 both cross the tie 4 3
  crossing 1 from 4 to 3 and crossing 3 from 4 to 3 both cross the tie 4 3",
    ),
    (
        "ring 1 2 4 3",
        "refused 12, gap twice: command 9, ring 1 2 4 3, at byte 32, line 9
The ring starts two crossings in one gap: crossing 1 starts at 1 and crossing 2 at 4, both in the gap 1 4.",
    ),
    (
        "ring 1 2",
        "refused 13, path broken: command 9, ring 1 2, at byte 32, line 9
A crossing does not end in the gap where the next one starts: \
crossing 1 ends at 2, in the gap 2 3, and crossing 1 starts at 1, in the gap 1 4.",
    ),
    (
        "bytes ff 07",
        "refused 15, unknown command: command 9, byte ff, at byte 32, line 9
A byte of the tape is no command: ff is not from 01 to 08.",
    ),
    (
        "bytes 00",
        "refused 15, unknown command: command 9, byte 00, at byte 32, line 9
A byte of the tape is no command: 00 is not from 01 to 08.",
    ),
    (
        "bytes 02 01",
        "refused 16, torn command: command 9, take out, at byte 32, line 9
The tape ends inside a command: a take out has 3 bytes, of which 1 is missing.",
    ),
    (
        "bytes 05",
        "refused 16, torn command: command 9, cell join, at byte 32, line 9
The tape ends inside a command: a cell join has 5 bytes, of which 4 are missing.",
    ),
    (
        "bytes 08",
        "refused 16, torn command: command 9, ring, at byte 32, line 9
The tape ends inside a command: a ring has 2 bytes at least, of which 1 is missing.",
    ),
    (
        "bytes 08 01 01",
        "refused 16, torn command: command 9, ring, at byte 32, line 9
The tape ends inside a command: a ring of 1 crossing has 6 bytes, of which 3 are missing.",
    ),
    (
        "bytes 08 02 01 00 02 00 03",
        "refused 16, torn command: command 9, ring, at byte 32, line 9
The tape ends inside a command: a ring of 2 crossings has 10 bytes, of which 3 are missing.",
    ),
];

#[test]
fn each_refusal_is_explained() {
    for (line, explanation) in REFUSED {
        let expected = format!("{explanation}\n8 commands before it were accepted.\n");
        assert_eq!(explained(&format!("{SQUARE}{line}\n")), expected);
    }
    let numbers: Vec<String> = (3..=13).chain([15, 16]).map(|number| format!("refused {number},")).collect();
    let has = |number: &String| REFUSED.iter().any(|(_, explanation)| explanation.starts_with(number));
    assert!(numbers.iter().all(has), "every refusal of a command");
}

#[test]
fn breaks_of_a_path() {
    let text = "put 1\nput 2\ncell join 1 2\ntie join 1 2\nput 3\nput 4\ntie join 3 4\n\nring 1 2 3 4";
    let expected = "\
refused 13, path broken: command 8, ring 1 2 3 4, at byte 27, line 9
A crossing does not end in the gap where the next one starts:
  crossing 1 ends at 2, in the gap 2, and crossing 2 starts at 3, in the gap 3 4
  crossing 2 ends at 4, in the gap 4 3, and crossing 1 starts at 1, in the gap 1
7 commands before it were accepted.
";
    assert_eq!(explained(text), expected);
}

#[test]
fn how_many_were_accepted() {
    let second_put = "put 2\nput 2";
    assert!(explained(second_put).ends_with("\n1 command before it was accepted.\n"));
    assert!(explained("take out 2").ends_with("\nNo command before it was accepted.\n"));
    let tape = to_tape(second_put.as_bytes()).expect("a text").0;
    let first_line = "refused 5, tab taken: command 2, put 2, at byte 3\n";
    assert!(play(&tape).in_words(&[]).starts_with(first_line), "no line where there was no text");
}

#[test]
fn accepted_runs() {
    let report = "4 tabs, 4 ties, 2 cells, 2 gaps, 2 pieces, characteristic 4, 0 handles, 2 lifts";
    assert_eq!(explained(&format!("{SQUARE}report\nring 1 2 3 4")), format!("accepted: 10 commands\n{report}\n"));
    let report = "1 tab, 1 tie, 1 cell, 1 gap, 1 piece, characteristic 2, 0 handles, 0 lifts";
    assert_eq!(explained("put 7"), format!("accepted: 1 command\n{report}\n"));
    let report = "0 tabs, 0 ties, 0 cells, 0 gaps, 0 pieces, characteristic 0, 0 handles, 0 lifts";
    assert_eq!(explained(""), format!("accepted: 0 commands\n{report}\n"));
    let genus = std::fs::read(concat!(env!("CARGO_MANIFEST_DIR"), "/../examples/genus.tape")).expect("a tape");
    let report = "5 tabs, 1 tie, 1 cell, 1 gap, 1 piece, characteristic -2, 2 handles, 1 lift";
    assert_eq!(play(&genus).in_words(&[]), format!("accepted: 14 commands\n{report}\n"));
}

const TOO_LONG: &str = "\
refused 1, wrong size: a tape of 65537 bytes
The table's words are no multiple of 4 or more than 16,384, or the tape has more than 65,536 bytes: \
the tape has 65537 bytes.
";

#[test]
fn a_tape_that_is_too_long() {
    let tape = vec![7; 65_537];
    assert_eq!(play(&tape).in_words(&[]), format!("{TOO_LONG}No command was played.\n"));
    assert_eq!(needs(&tape).expect_err("too long").in_words(&[]), TOO_LONG);
    assert!(play(&tape[..65_536]).refused.is_none());
}

#[test]
fn long_rounds_are_shortened() {
    let puts: String = (1..=96).map(|tab| format!("put {tab}\n")).collect();
    let joins: String = (2..=96).map(|tab| format!("tie join 1 {tab}\n")).collect();
    let row = "1 2 3 4 5 6 7 8 9 10 11 12 … and 84 more";
    let expected = format!(
        "refused 7, together: command 192, tie join 1 50, at byte 763, line 192
The two tabs to be joined are in one tie (cell) already: 1 and 50 lie in the tie {row}, 49 steps from 1 to 50.
191 commands before it were accepted.\n"
    );
    assert_eq!(explained(&format!("{puts}{joins}tie join 1 50")), expected);
    let ring = format!("ring{}", " 1".repeat(26));
    let first = "refused 9, same tab: command 97, ring 1 1 1 1 1 1 1 1 1 1 1 1 … and 14 more, at byte 288, line 97";
    let crossings: String = (1..=12).map(|number| format!("  crossing {number} goes from 1 to 1\n")).collect();
    let rule = "A tab is to be cut, or crossed, with itself:";
    let expected = format!("{first}\n{rule}\n{crossings}  … and 1 more\n96 commands before it were accepted.\n");
    assert_eq!(explained(&format!("{puts}{ring}")), expected);
}

#[test]
fn needs_are_told_or_why_not() {
    let (tape, lines) = to_tape(b"put 1\nput 1\ntie join 7 8\nbytes 04 00\n").expect("a text");
    let refused = needs(&tape).expect_err("torn");
    let expected = "\
refused 16, torn command: command 4, tie cut, at byte 11, line 4
The tape ends inside a command: a tie cut has 5 bytes, of which 3 are missing.
";
    assert_eq!(refused.in_words(&lines), expected, "though a run is refused before");
    assert_eq!(
        needs(&tape[..11]).map(|needs| (needs.capacity, needs.commands, needs.peak, needs.words)),
        Ok((8, 3, 2, 12))
    );
    let unknown = needs(&[7, 9]).expect_err("unknown");
    assert_eq!((unknown.number, unknown.before, unknown.start, unknown.culprits), (15, 1, 1, Culprits::Unknown(9)));
}

#[test]
fn sixteen_refusals_in_order() {
    assert!(REFUSALS.iter().map(|refusal| refusal.number).eq(1..=16));
    assert!((1..=16).all(|number| refusals::numbered(number).is_some_and(|refusal| refusal.number == number)));
    assert!(refusals::numbered(0).is_none() && refusals::numbered(17).is_none());
    let readme = std::fs::read_to_string(concat!(env!("CARGO_MANIFEST_DIR"), "/../README.md")).expect("the README");
    for refusal in &REFUSALS {
        let row = format!("| {} | {} | {} |", refusal.number, refusal.word, refusal.wrong);
        assert!(readme.lines().any(|line| line == row), "{row}");
    }
}
