//! The command `tape`, run as a program: what it writes, its exit status, and that no input makes it panic.

use lotskadi_host::testing::random::Random;
use lotskadi_host::testing::tapes;
use lotskadi_host::{draw, explain, text};
use std::io::Write;
use std::process::{Command, Output, Stdio};

const SQUARE: &str = concat!(env!("CARGO_MANIFEST_DIR"), "/../examples/square.tape");
const SQUARE_TEXT: &str = concat!(env!("CARGO_MANIFEST_DIR"), "/../examples/square.txt");

fn tape(arguments: &[&str]) -> Command {
    let mut command = Command::new(env!("CARGO_BIN_EXE_tape"));
    command.args(arguments).stdin(Stdio::piped()).stdout(Stdio::piped()).stderr(Stdio::piped());
    command
}

fn run(arguments: &[&str], input: &[u8]) -> Output {
    let mut child = tape(arguments).spawn().expect("the program");
    let mut stdin = child.stdin.take().expect("its input");
    // a call that reads no input may have ended already
    let _ = stdin.write_all(input);
    drop(stdin);
    child.wait_with_output().expect("its output")
}

/// Standard output, standard error and the exit status of a call.
fn answer(arguments: &[&str], input: &[u8]) -> (String, String, i32) {
    let Output { status, stdout, stderr } = run(arguments, input);
    let text = |bytes: Vec<u8>| String::from_utf8(bytes).expect("text");
    (text(stdout), text(stderr), status.code().expect("an exit status"))
}

fn done(output: &str) -> (String, String, i32) {
    (output.to_string(), String::new(), 0)
}

fn failed(messages: &str) -> (String, String, i32) {
    (String::new(), messages.to_string(), 1)
}

fn square() -> Vec<u8> {
    std::fs::read(SQUARE).expect("the tape")
}

#[test]
fn texts_and_tapes() {
    for (file, input) in [(SQUARE_TEXT, vec![]), ("-", std::fs::read(SQUARE_TEXT).expect("the text"))] {
        let Output { status, stdout, stderr } = run(&["from-text", file], &input);
        assert_eq!((stdout, stderr, status.code()), (square(), vec![], Some(0)));
    }
    let canonical = "put 1\nput 2\nput 3\nput 4\ntie join 1 2\ntie join 3 4\ncell join 1 3\ncell join 2 4\nreport\n\
                     ring 1 2 3 4\nreport\n";
    assert_eq!(answer(&["to-text", SQUARE], b""), done(canonical));
    assert_eq!(answer(&["to-text"], &square()), done(canonical));
    assert_eq!(answer(&["to-text"], b""), done(""));
}

#[test]
fn mistakes_in_a_text() {
    let text = b"put 1\njion\nput 70000\n";
    let messages = "line 2: 'jion' is no command\nline 3: '70000' is no tab number from 0 to 65535\n";
    for arguments in [&["from-text"][..], &["explain", "--text"], &["needs", "--text"], &["draw", "--text"]] {
        assert_eq!(answer(arguments, text), failed(messages));
    }
}

#[test]
fn explanations() {
    let accepted = "accepted: 11 commands\n\
                    4 tabs, 4 ties, 2 cells, 2 gaps, 2 pieces, characteristic 4, 0 handles, 2 lifts\n";
    assert_eq!(answer(&["explain", SQUARE], b""), done(accepted));
    assert_eq!(answer(&["explain", "--text", SQUARE_TEXT], b""), done(accepted));
    assert_eq!(answer(&["explain", SQUARE_TEXT, "--text"], b""), done(accepted));
    let refused = "refused 5, tab taken: command 2, put 1, at byte 3, line 3\n\
                   The tab to be put is present: 1 lies in the tie 1 and in the cell 1.\n\
                   1 command before it was accepted.\n";
    let expected = (refused.to_string(), String::new(), 1);
    assert_eq!(answer(&["explain", "--text"], b"put 1\n# again\nput 1\n"), expected);
    let expected = (refused.replace(", line 3", ""), String::new(), 1);
    assert_eq!(answer(&["explain"], &[1, 1, 0, 1, 1, 0]), expected);
}

#[test]
fn needs() {
    assert_eq!(answer(&["needs", SQUARE], b""), done("capacity 4\ncommands 11\npeak 4\nwords 40\n"));
    assert_eq!(answer(&["needs", "--text"], b"put 9\n"), done("capacity 9\ncommands 1\npeak 1\nwords 4\n"));
    let refused = "refused 15, unknown command: command 3, byte 2a, at byte 6\n\
                   A byte of the tape is no command: 2a is not from 01 to 08.\n";
    assert_eq!(answer(&["needs"], &[1, 1, 0, 1, 1, 0, 42]), failed(refused));
}

#[test]
fn drawings() {
    let picture = std::fs::read_to_string(concat!(env!("CARGO_MANIFEST_DIR"), "/../docs/pictures/square.dot"));
    assert_eq!(answer(&["draw", "--ring", "1", SQUARE], b""), done(&picture.expect("the picture")));
    let whole = draw::plan(&explain::play(&square()).table);
    assert_eq!(answer(&["draw", SQUARE], b""), done(&whole));
    assert_eq!(answer(&["draw", "--text", SQUARE_TEXT], b""), done(&whole));
    assert_eq!(
        answer(&["draw", SQUARE, "--ring", "2"], b""),
        failed("tape: there is no ring 2, the tape has 1 accepted ring\n")
    );
    assert_eq!(
        answer(&["draw", "--ring", "1"], &[1, 1, 0]),
        failed("tape: there is no ring 1, the tape has 0 accepted rings\n")
    );
}

#[test]
fn drawings_of_refused_runs() {
    let text = "put 1\nput 2\ntie join 1 2\nring 1 2\nput 1\nring 1 2\n";
    let refused = "refused 5, tab taken: command 5, put 1, at byte 17, line 5\n\
                   The tab to be put is present: 1 lies in the tie 1 and in the cell 1.\n\
                   4 commands before it were accepted.\n";
    let (tape, _) = text::to_tape(text.as_bytes()).expect("a text");
    let (before, after) = (explain::play(&tape[..11]).table, explain::play(&tape[..17]).table);
    let expected = (draw::plan(&after), refused.to_string(), 1);
    assert_eq!(answer(&["draw", "--text"], text.as_bytes()), expected);
    let expected = (draw::ring(&before, &after, &[1, 2]), refused.to_string(), 1);
    assert_eq!(answer(&["draw", "--text", "--ring", "1"], text.as_bytes()), expected);
    let no_ring = format!("tape: there is no ring 2, the tape has 1 accepted ring\n{refused}");
    assert_eq!(answer(&["draw", "--text", "--ring", "2"], text.as_bytes()), failed(&no_ring));
}

#[test]
fn help_and_wrong_usage() {
    let (usage, nothing, status) = answer(&["help"], b"");
    assert_eq!((&nothing[..], status), ("", 0));
    assert!(usage.starts_with("tape from-text [FILE]  "), "{usage}");
    for arguments in [&["--help"][..], &["draw", "--help"], &["help", "me"]] {
        assert_eq!(answer(arguments, b""), done(&usage));
    }
    let wrong = [
        (&[][..], ""),
        (&["paint"], "tape: 'paint' is no command\n"),
        (&["explain", "--txt"], "tape: '--txt' is no option of explain\n"),
        (&["to-text", "--text"], "tape: '--text' is no option of to-text\n"),
        (&["needs", "--ring", "1"], "tape: '--ring' is no option of needs\n"),
        (&["draw", "--ring"], "tape: --ring needs a number from 1 on\n"),
        (&["draw", "--ring", "0"], "tape: --ring needs a number from 1 on\n"),
        (&["draw", "--ring", SQUARE], "tape: --ring needs a number from 1 on\n"),
        (&["explain", SQUARE, "-"], "tape: more than one FILE\n"),
    ];
    for (arguments, reason) in wrong {
        assert_eq!(answer(arguments, b""), (String::new(), format!("{reason}{usage}"), 2));
    }
}

#[test]
fn files_that_cannot_be_read() {
    for file in ["no such file", "."] {
        let (output, messages, status) = answer(&["explain", file], b"");
        assert_eq!((&output[..], status), ("", 2));
        assert!(messages.starts_with(&format!("tape: cannot read {file}: ")), "{messages}");
    }
}

#[test]
fn a_reader_that_goes_away() {
    let mut child = tape(&["to-text"]).spawn().expect("the program");
    drop(child.stdout.take());
    let mut stdin = child.stdin.take().expect("its input");
    stdin.write_all(&vec![7; 1_000_000]).expect("a tape");
    drop(stdin);
    let Output { status, stderr, .. } = child.wait_with_output().expect("its output");
    assert_eq!((status.code(), &stderr[..]), (Some(0), &b""[..]));
}

#[test]
fn no_input_makes_it_panic() {
    let mut random = Random::new(8);
    let calls = [
        &["from-text"][..],
        &["to-text"],
        &["explain"],
        &["explain", "--text"],
        &["needs"],
        &["needs", "--text"],
        &["draw"],
        &["draw", "--text"],
        &["draw", "--ring", "1"],
        &["draw", "--text", "--ring", "2"],
    ];
    for turn in 0..300 {
        let mut input = tapes::random(&mut random, 20);
        tapes::damage(&mut random, &mut input);
        if random.once_in(2) {
            input = text::from_tape(&input).into_bytes();
            tapes::damage(&mut random, &mut input);
        }
        let arguments = calls[turn % calls.len()];
        let Output { status, stderr, .. } = run(arguments, &input);
        let messages = String::from_utf8_lossy(&stderr);
        assert!(matches!(status.code(), Some(0 | 1)), "{status} {messages} of {arguments:?} with {input:?}");
        let is_told = arguments[0] == "explain" || messages.is_empty() == status.success();
        assert!(is_told, "{status} {messages} of {arguments:?} with {input:?}");
    }
}
