//! The program itself: over a pipe, one record at a time, and with a tail.

use std::io::{BufRead, BufReader, Write};
use std::process::{Child, Command, Output, Stdio};

fn start(arguments: &[&str]) -> Child {
    Command::new(env!("CARGO_BIN_EXE_independent"))
        .args(arguments)
        .stdin(Stdio::piped())
        .stdout(Stdio::piped())
        .stderr(Stdio::piped())
        .spawn()
        .expect("the program starts")
}

/// Runs the program on an input to its end.
fn run(arguments: &[&str], input: &[u8]) -> Output {
    let mut child = start(arguments);
    child.stdin.take().unwrap().write_all(input).unwrap();
    child.wait_with_output().unwrap()
}

/// The lines of a run that ends well.
fn lines(arguments: &[&str], input: &[u8]) -> String {
    let output = run(arguments, input);
    assert!(output.status.success());
    assert_eq!(output.stderr, b"");
    String::from_utf8(output.stdout).unwrap()
}

/// "Each complete record is answered before the next blocking read".
fn answers_each_before_the_next(arguments: &[&str], kinds_and_lines: [(u8, &str); 3]) {
    let mut child = start(arguments);
    let mut input = child.stdin.take().unwrap();
    let mut output = BufReader::new(child.stdout.take().unwrap());
    for (kind, expected) in kinds_and_lines {
        input.write_all(&[kind, 0xe, 0]).unwrap();
        input.flush().unwrap();
        input.write_all(&[0; 5]).unwrap();
        let mut line = String::new();
        output.read_line(&mut line).unwrap();
        assert_eq!(line, expected);
    }
    drop(input);
    assert!(child.wait().unwrap().success());
}

#[test]
fn answers_each_record_before_the_next() {
    let bench = [(2, "1 0 3300\n"), (10, "2 17 0000\n"), (1, "3 0 0000\n")];
    answers_each_before_the_next(&[], bench);
    answers_each_before_the_next(&["--strips"], bench);
    let watch = [
        (2, "1 0 3300 0\n"),
        (10, "2 17 0000 0\n"),
        (1, "3 0 0000 0\n"),
    ];
    answers_each_before_the_next(&["--watch"], watch);
    answers_each_before_the_next(&["--watch", "--strips"], watch);
}

/// "The bench asks for the part by a first record of kind 9", whichever lines it
/// prints and wherever the bytes lie; the mask is 0, so the line is down.
#[test]
fn a_first_record_asks_for_the_part() {
    let mir = [2, 0x8, 0, 0, 0, 0, 0, 0];
    let parts = [
        (0x94, "1 0 0000\n2 0 1212\n3 11 0000\n4 0 1212\n"),
        (0x96, "1 0 0000\n2 0 1818\n3 11 0000\n4 0 1818\n"),
        (0x95, "1 11 0000\n2 0 1818\n3 11 0000\n4 0 1818\n"),
    ];
    for (byte, expected) in parts {
        let [asked, again] = [byte, 0x94].map(|byte| [9, byte, 1, 2, 3, 4, 5, 6]);
        let input = [asked, mir, again, mir];
        for bench in [&[][..], &["--strips"]] {
            assert_eq!(lines(bench, input.as_flattened()), expected);
        }
        for watch in [&["--watch"][..], &["--strips", "--watch"]] {
            let expected = expected.replace('\n', " 0\n");
            assert_eq!(lines(watch, input.as_flattened()), expected);
        }
    }
}

/// "record cut short": one line, whether 1 or 7 bytes are left.
#[test]
fn a_tail_is_one_line() {
    for tail in 1..8 {
        let input = [&[2, 8, 0, 0, 0, 0, 0, 0], &[1; 7][..tail]].concat();
        for bench in [&[][..], &["--strips"]] {
            assert_eq!(lines(bench, &input), "1 0 1818\n2 17 0000\n");
        }
        for watch in [&["--watch"][..], &["--strips", "--watch"]] {
            assert_eq!(lines(watch, &input), "1 0 1818 0\n2 17 0000 0\n");
        }
    }
}

/// "a line with 17 has its interrupt line as well": up, for TX EMPTY is set at
/// power-up and in the mask. The tail would clear the mask if it were whole.
#[test]
fn a_tail_has_the_line_as_it_is_then() {
    let records: [[u8; 8]; 3] = [
        [3, 0xe, 2, 0, 0, 0, 0, 0],
        [3, 0xd, 4, 0, 0, 0, 0, 0],
        [10, 0xd, 0, 0, 0, 0, 0, 0],
    ];
    for tail in 1..8 {
        let input = [records.as_flattened(), &[3, 0xd, 0, 0, 0, 0, 0][..tail]].concat();
        let expected = "1 0 0000 0\n2 0 0000 1\n3 17 0000 1\n4 17 0000 1\n";
        assert_eq!(lines(&["--watch"], &input), expected);
        let bench = "1 0 0000\n2 0 0000\n3 17 0000\n4 17 0000\n";
        assert_eq!(lines(&[], &input), bench);
    }
}

/// A tail of kind 7 is no send, even where one would be done.
#[test]
fn a_send_and_a_tail_of_one() {
    let records: [[u8; 8]; 7] = [
        [4, 0x0, 0x01, 0, 0, 0, 0, 0],
        [3, 0xe, 2, 0, 0, 0, 0, 0],
        [3, 0x0, 0x20, 0, 0, 0, 0, 0],
        [4, 0x6, 0x02, 0x40, 0, 0, 0, 0],
        [4, 0x8, 12, 0, 0, 0, 0, 0],
        [4, 0x8, 0xfe, 0x09, 0, 0, 0, 0],
        [3, 0x0, 0xc0, 0, 0, 0, 0, 0],
    ];
    let ready = "1 0 0000 0\n2 0 0000 0\n3 0 0000 0\n4 0 0000 0\n5 0 0000 0\n\
                 6 0 0000 0\n7 0 0000 0\n";
    let ready_and = |input: &[u8]| [records.as_flattened(), input].concat();
    assert_eq!(
        lines(&["--watch"], &ready_and(&[7, 0, 0, 0, 0, 0, 0, 0])),
        format!("{ready}8 0 000a 0 fe0900000000bbbb4a93\n")
    );
    assert_eq!(
        lines(&["--watch"], &ready_and(&[7, 0, 0, 0, 0, 0, 0])),
        format!("{ready}8 17 0000 0\n")
    );
}

#[test]
fn no_record_is_no_line() {
    assert_eq!(lines(&[], b""), "");
    assert_eq!(lines(&["--watch"], b""), "");
}

#[test]
fn other_arguments_get_the_usage() {
    let unexpected: [&[&str]; 8] = [
        &[""],
        &["watch"],
        &["--watch=1"],
        &["--watch", "--watch"],
        &["--strips", "--strips"],
        &["--watch", "--strips", "--watch"],
        &["--strip"],
        &["records", "--watch"],
    ];
    for arguments in unexpected {
        let output = run(arguments, b"");
        assert_eq!(output.status.code(), Some(2), "{arguments:?}");
        assert_eq!(output.stdout, b"");
        assert_eq!(
            output.stderr,
            b"usage: independent [--strips] [--watch] < records\n"
        );
    }
}
