//! The command line: what it prints, and its exit status.

mod common;

use common::all_cases;
use std::fs::File;
use std::io::Write;
use std::process::{Command, Output, Stdio};

/// Runs the program with these arguments and this standard input.
fn twin(args: &[&str], input: &[u8]) -> Output {
    let mut child = Command::new(env!("CARGO_BIN_EXE_twin"))
        .args(args)
        .stdin(Stdio::piped())
        .stdout(Stdio::piped())
        .stderr(Stdio::piped())
        .spawn()
        .expect("the program runs");
    let mut stdin = child.stdin.take().expect("its standard input");
    let input = input.to_vec();
    let feeder = std::thread::spawn(move || {
        // a program that stops early does not read it all
        let _ = stdin.write_all(&input);
    });
    let output = child.wait_with_output().expect("the program ends");
    feeder.join().expect("the input is fed");
    output
}

/// The program prints this and succeeds, with nothing on standard error.
fn prints(args: &[&str], input: &[u8], wanted: &str) {
    let output = twin(args, input);
    assert_eq!(String::from_utf8_lossy(&output.stdout), wanted, "{args:?}");
    assert!(output.stderr.is_empty(), "{args:?}");
    assert_eq!(output.status.code(), Some(0), "{args:?}");
}

/// The program ends with status 2 and a message that holds this text.
fn complains(args: &[&str], input: &[u8], wanted: &str) {
    let output = twin(args, input);
    let message = String::from_utf8_lossy(&output.stderr);
    assert!(message.contains(wanted), "{args:?}: {message}");
    assert!(!message.contains("panicked"), "{args:?}: {message}");
    assert_eq!(output.status.code(), Some(2), "{args:?}");
}

const FILE: &[u8] = b"standard E\nprogram a/E.\n";
const TABLE: &[u8] = &[
    0x11, 0x10, 0x01, 0x01, 0x18, 0x04, 0x80, 0x70, 0x00, 0x80, 0x40,
];

#[test]
fn basic_and_adaptive() {
    let wanted = "ok 2 11\n1110010118048070008040\n";
    prints(&["basic"], FILE, wanted);
    prints(&["adaptive"], FILE, wanted);
    prints(&["basic"], b"", "refused 7 at 0\n");
    let fugitive = b"program a/E.\nfugitive E\n";
    prints(&["basic"], fugitive, "refused 15 at 13\n");
    prints(&["adaptive"], fugitive, "ok 2 11\n1110010138048070008040\n");
    prints(&["adaptive"], &[b'a'; 5000], "refused 2 at 0\n");
}

#[test]
fn trace() {
    prints(&["trace", ""], FILE, "start a\n");
    prints(&["trace", "E"], FILE, "start a\nE -a\n");
    prints(
        &["trace", "xEa"],
        FILE,
        "start a\nx refused 21\nE -a\na refused 22\n",
    );
    let resumes = b"standard E\nprogram [a/E:b]*.\n";
    prints(&["trace", "Eb"], resumes, "start a\nE -a +b\nb ~a\n");
    prints(&["trace", "a"], b"program a\n", "refused 8 at 9\n");
    prints(&["trace", ""], b"program 1.\n", "start\n");
    let joined = b"standard EF\nprogram [1/{E:a||F:b}||c].\n";
    prints(&["trace", "FE"], joined, "start c\nF +b\nE +a\n");
}

#[test]
fn table_start_and_table_step() {
    prints(&["table-start"], TABLE, "state 0 a\n");
    prints(&["table-start"], &[0x10, 0, 0], "state 0\n");
    prints(&["table-start"], b"", "refused 19 at 0\n");
    prints(&["table-step", "0", "97"], TABLE, "state 1 0\n");
    prints(&["table-step", "0", "69"], TABLE, "state 1 3\n");
    prints(&["table-step", "1", "97"], TABLE, "refused 22 at 0\n");
    prints(&["table-step", "1", "98"], TABLE, "refused 21 at 0\n");
    prints(&["table-step", "2", "98"], TABLE, "refused 20 at 0\n");
    prints(&["table-step", "2", "98"], &TABLE[1..], "refused 19 at 0\n");
    // the table of `1/A.`, an event and no module: nothing after the state
    let table = [0x10, 0x10, 0x01, 0x02, 0x01, 0x80, 0x40];
    prints(&["table-start"], &table, "state 0\n");
    prints(&["table-step", "0", "65"], &table, "state 1\n");
}

#[test]
fn batch_answers_as_one_by_one() {
    let mut input = Vec::new();
    let mut wanted = Vec::new();
    let cases = all_cases();
    for case in &cases {
        for (edition, answer) in [("basic", &case.basic), ("adaptive", &case.adaptive)] {
            input.extend(format!("{edition} {}\n", case.file.len()).into_bytes());
            input.extend(&case.file);
            wanted.extend(answer);
        }
    }
    let output = twin(&["batch"], &input);
    assert!(cases.len() >= 400);
    assert!(output.stdout == wanted);
    assert!(output.stderr.is_empty());
    assert_eq!(output.status.code(), Some(0));
}

#[test]
fn batch_stops_at_the_end_of_input() {
    prints(&["batch"], b"", "");
    prints(&["batch"], b"basic 0\n", "refused 7 at 0\n");
    prints(
        &["batch"],
        b"basic 10\nprogram a\nadaptive 1\nxbasic 0\n",
        "refused 8 at 9\nrefused 3 at 0\nrefused 7 at 0\n",
    );
    prints(
        &["batch"],
        &[b"adaptive 2000\n".as_slice(), &[b'\n'; 2000]].concat(),
        "refused 2 at 0\n",
    );
}

#[test]
fn batch_complains_of_a_malformed_record() {
    for line in [
        "basic\n",
        "basic \n",
        "basic x\n",
        "basic -1\n",
        "basic +1\n",
        "basic 1 \n",
        "basic  1\n",
        "basic 0",
        "Basic 0\n",
        "trace 0\n",
        "\n",
        " 0\n",
        "basic 0\r\n",
        "basic 99999999999999999999999999\n",
    ] {
        complains(&["batch"], line.as_bytes(), "record 1");
    }
    complains(&["batch"], &[b'x'; 10_000], "record 1");
    complains(&["batch"], b"\xff\xfe\n", "record 1");
    complains(&["batch"], b"basic 5\nabc", "fewer than 5 bytes");
    complains(&["batch"], b"basic 18446744073709551615\nabc", "fewer than");
    let output = twin(&["batch"], b"basic 0\nbasic\n");
    assert_eq!(output.stdout, b"refused 7 at 0\n", "the first is answered");
    assert_eq!(output.status.code(), Some(2));
    assert!(String::from_utf8_lossy(&output.stderr).contains("record 2"));
}

#[test]
fn wrong_arguments_get_the_usage() {
    let wrong: &[&[&str]] = &[
        &[],
        &[""],
        &["Basic"],
        &["basic", "x"],
        &["adaptive", ""],
        &["trace"],
        &["trace", "a", "b"],
        &["table-start", "0"],
        &["table-step"],
        &["table-step", "0"],
        &["table-step", "0", "x"],
        &["table-step", "x", "97"],
        &["table-step", "-1", "97"],
        &["table-step", "+1", "97"],
        &["table-step", "0", "256"],
        &["table-step", "0", ""],
        &["table-step", "", "97"],
        &["table-step", "0", "97", "1"],
        &["batch", "basic"],
        &["--help"],
    ];
    for args in wrong {
        complains(args, FILE, "usage");
        assert!(twin(args, FILE).stdout.is_empty());
    }
}

#[test]
fn a_standard_input_that_cannot_be_read_gets_a_message() {
    let commands: &[&[&str]] = &[
        &["basic"],
        &["adaptive"],
        &["trace", "a"],
        &["table-start"],
        &["table-step", "0", "97"],
        &["batch"],
    ];
    for args in commands {
        // a folder opens, and cannot be read
        let folder = File::open(env!("CARGO_MANIFEST_DIR")).expect("a folder opens");
        let output = Command::new(env!("CARGO_BIN_EXE_twin"))
            .args(*args)
            .stdin(Stdio::from(folder))
            .output()
            .expect("the program runs");
        let message = String::from_utf8_lossy(&output.stderr);
        assert!(message.contains("cannot be read"), "{args:?}: {message}");
        assert!(message.contains("usage"), "{args:?}: {message}");
        assert!(output.stdout.is_empty());
        assert_eq!(output.status.code(), Some(2));
    }
}

/// One frame of a stream.
fn frame(file: &[u8]) -> Vec<u8> {
    let mut out = vec![(file.len() / 256) as u8, (file.len() % 256) as u8];
    out.extend(file);
    out
}

#[test]
fn stream() {
    let braces = b"fugitive GF\nstandard E\nprogram [a||b*]c/{E:d/F||{F|G}}.\n";
    let frames = [frame(FILE), frame(b""), frame(braces)].concat();
    prints(
        &["stream", "reading-adaptive"],
        &frames,
        "read a E - aE/\nrefused 7 at 0\nread abcd EFG FG ab*|cEdF/:FG!&/;\n",
    );
    let wanted = "read a E - aE/\nrefused 7 at 0\nrefused 15 at 0\n";
    prints(&["stream", "reading-basic"], &frames, wanted);
    let wanted = "ok 2 11\n1110010118048070008040\nrefused 7 at 0\n";
    prints(&["stream", "basic"], &frames[..FILE.len() + 4], wanted);
    prints(&["stream", "adaptive"], b"", "");
    complains(&["stream", "basic"], &frames[..5], "cut short");
    complains(&["stream", "trace"], &frames, "usage");
    complains(&["stream"], &frames, "usage");
}

/// One call of a table in a stream: 0 for start, the state, the letter.
fn call(kind: u8, state: u16, letter: u8, table: &[u8]) -> Vec<u8> {
    let mut out = vec![kind];
    out.extend(state.to_be_bytes());
    out.push(letter);
    out.extend(frame(table));
    out
}

#[test]
fn stream_of_tables() {
    let calls = [
        call(0, 7, b'x', TABLE),
        call(1, 0, b'a', TABLE),
        call(1, 0, b'E', TABLE),
        call(9, 1, b'a', TABLE),
        call(1, 1, b'A', TABLE),
        call(1, 258, b'a', TABLE),
        call(1, 0, b'a', &TABLE[1..]),
        call(0, 0, 0, b""),
    ]
    .concat();
    prints(
        &["stream", "tables"],
        &calls,
        "state 0 1 0 0 0 0 0 0 0\nstate 1 0 0 0 0 0 0 0 0\nstate 1 3 0 0 0 0 0 0 0\n\
         refused 22\nrefused 21\nrefused 20\nrefused 19\nrefused 19\n",
    );
    prints(&["stream", "tables"], b"", "");
    complains(&["stream", "tables"], &calls[..5], "cut short");
    complains(&["stream", "tables"], &calls[..16], "cut short");
}

#[test]
fn stream_of_walks() {
    let refused = b"program a\n";
    let runs = [frame(FILE), frame(b"xEa"), frame(refused), frame(b"a")].concat();
    let wanted = "start a\nx refused 21\nE -a\na refused 22\nrefused 8 at 9\n";
    prints(&["stream", "walks"], &runs, wanted);
    prints(&["stream", "walks"], b"", "");
    complains(&["stream", "walks"], &frame(FILE), "cut short");
}

/// One live call in a stream: 0 for start, the letter, the live state.
fn live_call(start: u8, letter: u8, live: &[u8]) -> Vec<u8> {
    [&[start, letter, live.len() as u8], &frame(FILE)[..], live].concat()
}

#[test]
fn stream_of_lives() {
    // `/` with node 2, and the module a; the end
    let mut start = [0; 128];
    start[..2].copy_from_slice(&[0x82, 0x02]);
    start[96] = 0x70;
    start[120] = 2;
    let end = [0; 128];
    let hex = |live: &[u8]| -> String { live.iter().map(|b| format!("{b:02x}")).collect() };
    for (call, wanted) in [
        (live_call(0, 0, &end), format!("10000000 {}", hex(&start))),
        (
            live_call(1, b'a', &start),
            format!("00000000 {}", hex(&end)),
        ),
        (
            live_call(1, b'E', &start),
            format!("30000000 {}", hex(&end)),
        ),
        (
            live_call(1, b'a', &end),
            format!("refused 22 at 0 {}", hex(&end)),
        ),
        (
            live_call(1, b'b', &end),
            format!("refused 21 at 0 {}", hex(&end)),
        ),
        (
            live_call(1, b'b', &[1; 128]),
            format!("refused 23 at 0 {}", hex(&[1; 128])),
        ),
        (
            live_call(1, b'b', &[1; 127]),
            format!("refused 1 at 0 {}", hex(&[1; 127])),
        ),
        (live_call(0, b'b', &[]), String::from("refused 1 at 0 ")),
    ] {
        prints(&["stream", "lives"], &call, &(wanted + "\n"));
        complains(&["stream", "lives"], &call[..4], "cut short");
    }
}
