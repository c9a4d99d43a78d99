//! Tapes as text and back, on random tapes; and every mistake that a text can have.

use lotskadi_host::testing::random::Random;
use lotskadi_host::testing::tapes;
use lotskadi_host::text::{from_tape, line_of, to_tape, Line};

/// Commands, accepted or not; whole, or damaged up to three times; or any bytes.
fn any_tape(random: &mut Random) -> Vec<u8> {
    if random.once_in(4) {
        return (0..random.below(80)).map(|_| random.next() as u8).collect();
    }
    let capacity = *random.one_of(&[0, 1, 3, 8, 20, 300]);
    let mut tape = tapes::random(random, capacity);
    for _ in 0..random.below(4) {
        tapes::damage(random, &mut tape);
    }
    tape
}

fn made(text: &str) -> (Vec<u8>, Vec<Line>) {
    to_tape(text.as_bytes()).unwrap_or_else(|mistakes| panic!("{mistakes:?} in {text}"))
}

fn there_and_back(tape: &[u8]) {
    let text = from_tape(tape);
    assert_eq!(made(&text).0, tape, "the tape of {text}");
    assert_eq!(from_tape(&made(&text).0), text, "the text of a canonical text's tape");
}

#[test]
fn every_tape_is_the_tape_of_its_text() {
    let mut random = Random::new(1);
    let mut torn = 0;
    for _ in 0..20_000 {
        let tape = any_tape(&mut random);
        torn += u32::from(from_tape(&tape).contains("bytes"));
        there_and_back(&tape);
    }
    assert!((2000..18_000).contains(&torn), "{torn} tapes that are no whole commands");
}

#[test]
fn long_tapes_too() {
    let mut random = Random::new(2);
    let longest_ring: Vec<u8> = [8, 255].into_iter().chain((0..1020).map(|_| random.next() as u8)).collect();
    there_and_back(&longest_ring);
    there_and_back(&longest_ring[..1021]);
    let bytes: Vec<u8> = (0..200_000).map(|_| random.next() as u8).collect();
    there_and_back(&bytes);
    there_and_back(&vec![7; 70_000]);
}

#[test]
fn canonical_lines() {
    let lines: [(&[u8], &str); 12] = [
        (&[1, 1, 0], "put 1\n"),
        (&[2, 0, 1], "take out 256\n"),
        (&[3, 1, 0, 2, 0], "tie join 1 2\n"),
        (&[4, 0, 0, 255, 255], "tie cut 0 65535\n"),
        (&[5, 3, 0, 4, 0], "cell join 3 4\n"),
        (&[6, 4, 0, 3, 0], "cell cut 4 3\n"),
        (&[7], "report\n"),
        (&[8, 0], "ring\n"),
        (&[8, 2, 1, 0, 2, 0, 3, 0, 4, 0], "ring 1 2 3 4\n"),
        (&[8, 2, 255], "bytes 08 02 ff\n"),
        (&[7, 0, 7, 7], "report\nbytes 00 07 07\n"),
        (&[9; 17], "bytes 09 09 09 09 09 09 09 09 09 09 09 09 09 09 09 09\nbytes 09\n"),
    ];
    for (tape, text) in lines {
        assert_eq!(from_tape(tape), text);
        assert_eq!(made(text).0, tape);
    }
    assert_eq!(from_tape(&[]), "");
}

#[test]
fn the_square() {
    let examples = concat!(env!("CARGO_MANIFEST_DIR"), "/../examples");
    let text = std::fs::read(format!("{examples}/square.txt")).expect("the text");
    let tape = std::fs::read(format!("{examples}/square.tape")).expect("the tape");
    let (made, lines) = to_tape(&text).expect("no mistakes");
    assert_eq!(made, tape);
    assert_eq!(lines.len(), 11, "a line for each command");
}

// LINES

/// Blanks between words, or round them where there may be none.
fn blanks(random: &mut Random, least: usize) -> Vec<u8> {
    (0..least + random.below(3)).map(|_| *random.one_of(b" \t")).collect()
}

fn comment(random: &mut Random) -> Vec<u8> {
    random.one_of(&[&b"# a tab"[..], b"#put 1", b"# \xff\xfe\xe9 of another encoding", b"#", b"# # ring"]).to_vec()
}

/// The same line with other blanks, and perhaps a comment.
fn loosened(random: &mut Random, line: &str) -> Vec<u8> {
    let mut loose = blanks(random, 0);
    for (i, word) in line.split(' ').enumerate() {
        loose.extend(blanks(random, usize::from(i > 0)));
        loose.extend(word.bytes());
    }
    loose.extend(blanks(random, 0));
    if random.once_in(3) {
        loose.extend(comment(random));
    }
    loose
}

/// A line that makes no bytes.
fn idle(random: &mut Random) -> Vec<u8> {
    let mut line = blanks(random, 0);
    if random.once_in(2) {
        line.extend(comment(random));
    }
    line
}

fn line_end(random: &mut Random) -> &'static str {
    if random.once_in(2) {
        "\n"
    } else {
        "\r\n"
    }
}

/// The text with idle lines in between and either line end, and the number of each of its lines.
fn loosened_text(random: &mut Random, text: &str) -> (Vec<u8>, Vec<usize>) {
    let (mut loose, mut numbers, mut number) = (vec![], vec![], 1);
    for line in text.lines() {
        while random.once_in(3) {
            loose.extend(idle(random));
            loose.extend(line_end(random).bytes());
            number += 1;
        }
        numbers.push(number);
        loose.extend(loosened(random, line));
        loose.extend(line_end(random).bytes());
        number += 1;
    }
    if random.once_in(2) && loose.ends_with(b"\n") {
        loose.pop();
    }
    (loose, numbers)
}

#[test]
fn blanks_and_comments_change_nothing_but_the_lines() {
    let mut random = Random::new(3);
    for _ in 0..5000 {
        let tape = any_tape(&mut random);
        let text = from_tape(&tape);
        let (loose, numbers) = loosened_text(&mut random, &text);
        let (again, lines) = to_tape(&loose).expect("no mistakes");
        assert_eq!(again, tape);
        let starts = made(&text).1.into_iter().map(|line| line.start);
        let expected: Vec<Line> =
            numbers.into_iter().zip(starts).map(|(number, start)| Line { number, start }).collect();
        assert_eq!(lines, expected);
    }
}

#[test]
fn every_byte_has_its_line() {
    let text = "# head\nput 1\n\n  tie join 1 2\nbytes 08\nring # of none\nreport";
    let (tape, lines) = made(text);
    let numbers: Vec<usize> = (0..tape.len()).map(|byte| line_of(&lines, byte).expect("a line")).collect();
    assert_eq!(numbers, [2, 2, 2, 4, 4, 4, 4, 4, 5, 6, 6, 7]);
    assert_eq!(line_of(&[], 0), None, "a tape that came from no text");
}

#[test]
fn a_byte_order_mark_does_no_harm() {
    assert_eq!(made("\u{feff}put 1\r\n").0, [1, 1, 0]);
}

// MISTAKES

fn messages(text: &str) -> Vec<String> {
    let mistakes = to_tape(text.as_bytes()).expect_err(text);
    mistakes.iter().map(ToString::to_string).collect()
}

fn ring_of(tabs: usize) -> String {
    format!("ring{}", " 1".repeat(tabs))
}

#[test]
fn each_mistake_has_its_message() {
    let long_word = "x".repeat(41);
    let cases = [
        ("jion 1 2", "'jion' is no command"),
        ("1", "'1' is no command"),
        ("put1", "'put1' is no command"),
        ("take", "'take' is no command, 'take out' is"),
        ("take in 1", "'take in' is no command, 'take out' is"),
        ("tie", "'tie' is no command, 'tie join' and 'tie cut' are"),
        ("tie 1 2", "'tie 1' is no command, 'tie join' and 'tie cut' are"),
        ("tie foo 1 2", "'tie foo' is no command, 'tie join' and 'tie cut' are"),
        ("cell", "'cell' is no command, 'cell join' and 'cell cut' are"),
        ("Cell Join 1 2", "'Cell Join' is no command, 'cell join' and 'cell cut' are"),
        ("PUT 1", "'PUT' is no command, 'put' is"),
        ("Bytes 01", "'Bytes' is no command, 'bytes' is"),
        ("put", "put needs one tab, here are 0"),
        ("put 1 2", "put needs one tab, here are 2"),
        ("take out", "take out needs one tab, here are 0"),
        ("tie join 1", "tie join needs two tabs, here is 1"),
        ("tie cut 1 2 3", "tie cut needs two tabs, here are 3"),
        ("cell join", "cell join needs two tabs, here are 0"),
        ("cell cut 1", "cell cut needs two tabs, here is 1"),
        ("report 1", "report needs no tabs, here is 1"),
        ("ring 1", "ring needs pairs of tabs, here is 1"),
        ("ring 1 2 3", "ring needs pairs of tabs, here are 3"),
        (&ring_of(600), "ring has at most 255 crossings, here are 300"),
        (&ring_of(512), "ring has at most 255 crossings, here are 256"),
        (&ring_of(511), "ring needs pairs of tabs, here are 511"),
        ("put 70000", "'70000' is no tab number from 0 to 65535"),
        ("put 65536", "'65536' is no tab number from 0 to 65535"),
        ("put -1", "'-1' is no tab number from 0 to 65535"),
        ("put +1", "'+1' is no tab number from 0 to 65535"),
        ("put 1,", "'1,' is no tab number from 0 to 65535"),
        ("put \u{ff10}", "'\u{ff10}' is no tab number from 0 to 65535"),
        ("put 1\rput", "'1\\rput' is no tab number from 0 to 65535"),
        ("put \u{1b}[31m", "'\\u{1b}[31m' is no tab number from 0 to 65535"),
        (&format!("put {long_word}"), &format!("'{}…' is no tab number from 0 to 65535", &long_word[1..])),
        ("bytes", "bytes needs one byte or more, here are 0"),
        ("bytes fg", "'fg' is no byte of two hexadecimal digits"),
        ("bytes 1", "'1' is no byte of two hexadecimal digits"),
        ("bytes +1", "'+1' is no byte of two hexadecimal digits"),
        ("bytes 001", "'001' is no byte of two hexadecimal digits"),
    ];
    for (text, message) in cases {
        assert_eq!(messages(text), [format!("line 1: {message}")], "{text}");
        assert_eq!(messages(&format!("put 1\n\n{text} # so\nreport")), [format!("line 3: {message}")], "{text}");
    }
    assert!(to_tape(ring_of(510).as_bytes()).is_ok(), "255 crossings fit");
    assert_eq!(made("put 007\nbytes fF").0, [1, 7, 0, 255]);
}

#[test]
fn all_mistakes_are_told() {
    let text = "put 1\njion 2 3\ntie join 70000\n# jion\nring x 1 -2\r\nbytes 0 g1 07\nreport\nput";
    let expected = [
        "line 2: 'jion' is no command",
        "line 3: tie join needs two tabs, here is 1",
        "line 3: '70000' is no tab number from 0 to 65535",
        "line 5: ring needs pairs of tabs, here are 3",
        "line 5: 'x' is no tab number from 0 to 65535",
        "line 5: '-2' is no tab number from 0 to 65535",
        "line 6: '0' is no byte of two hexadecimal digits",
        "line 6: 'g1' is no byte of two hexadecimal digits",
        "line 8: put needs one tab, here are 0",
    ];
    assert_eq!(messages(text), expected);
    let both =
        ["line 1: ring needs pairs of tabs, here are 601", "line 1: ring has at most 255 crossings, here are 300"];
    assert_eq!(messages(&ring_of(601)), both);
}
