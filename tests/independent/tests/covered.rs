//! The program `covered`: what it copies, notes, reports and refuses.

use std::io::Write;
use std::process::{Command, Output, Stdio};

fn run(arguments: &[&str], input: &[u8]) -> Output {
    let mut child = Command::new(env!("CARGO_BIN_EXE_covered"))
        .args(arguments)
        .stdin(Stdio::piped())
        .stdout(Stdio::piped())
        .stderr(Stdio::piped())
        .spawn()
        .expect("the program starts");
    // one that refuses its arguments does not read
    let _ = child.stdin.take().unwrap().write_all(input);
    child.wait_with_output().unwrap()
}

fn record(bytes: &[u8]) -> Vec<u8> {
    let mut record = bytes.to_vec();
    record.resize(8, 0);
    record
}

fn records(all: &[&[u8]]) -> Vec<u8> {
    all.iter().flat_map(|bytes| record(bytes)).collect()
}

/// A broadcast frame of 18 bytes with a bad CRC is stored, for RCV_BAD is set, and
/// removed from RX; packet 0 has then count 24, of which its driver makes 22.
fn before() -> Vec<u8> {
    let setup: [&[u8]; 5] = [
        &[3, 0x0, 1],
        &[3, 0x5, 1],
        &[3, 0xe, 1],
        &[3, 0xd, 0x40],
        &[3, 0xe, 2],
    ];
    let wire = [5, 6, 0xff, 0xff, 0xff, 0xff, 0xff, 0xff];
    let frame: [&[u8]; 4] = [&wire, &wire, &wire, &[6]];
    let count: [&[u8]; 4] = [
        &[3, 0x0, 0x60],
        &[4, 0x6, 2, 0x40],
        &[4, 0x8, 22],
        &[3, 0x0, 0xc0],
    ];
    records(&[&setup[..], &frame, &count].concat())
}

const SEND: &[u8] = &[7];

/// At 21 is the last byte of the frame; rewritten, it is the host's.
fn stream() -> Vec<u8> {
    let control: [&[u8]; 2] = [&[4, 0x6, 21, 0x40], &[3, 0x8, 0]];
    let after = records(&[SEND, control[0], control[1], SEND]);
    [before(), after, vec![7, 0, 0]].concat()
}

#[test]
fn a_send_is_left_out() {
    let stream = stream();
    let output = run(&[], &stream);
    assert!(output.status.success());
    let expected = [&stream[..8 * 13], &stream[8 * 14..]].concat();
    assert_eq!(output.stdout, expected);
}

/// Of 16 bytes of data, from 4 to 19, ten are private. A tail has a note too.
#[test]
fn notes_have_a_line_for_each_record() {
    let file = std::env::temp_dir().join(format!("covered-notes-{}", std::process::id()));
    let output = run(&["--notes", file.to_str().unwrap()], &stream());
    assert!(output.status.success());
    let notes = std::fs::read_to_string(&file).unwrap();
    std::fs::remove_file(&file).unwrap();
    assert_eq!(notes, "other\n".repeat(15) + "send 10 16\nother\n");
}

#[test]
fn a_report_is_of_the_stream_as_it_is() {
    let expected = "record 14: the send of packet 0 goes by private bytes: 21 (control byte)\n";
    for strips in [&[][..], &["--strips"]] {
        let output = run(&[strips, &["--report"]].concat(), &stream());
        assert_eq!(output.status.code(), Some(1));
        assert_eq!(String::from_utf8(output.stdout).unwrap(), expected);
        let covered = run(strips, &stream()).stdout;
        let output = run(&[strips, &["--report"]].concat(), &covered);
        assert_eq!(
            (output.status.code(), &output.stdout[..]),
            (Some(0), &[][..])
        );
    }
}

#[test]
fn bad_arguments() {
    for arguments in [
        &["--reports"][..],
        &["--report", "--report"],
        &["--notes"],
        &["--report", "--notes", "x"],
        &["file"],
    ] {
        let output = run(arguments, b"");
        assert_eq!(output.status.code(), Some(2), "{arguments:?}");
        assert!(output.stderr.starts_with(b"usage: covered "));
    }
}

#[test]
fn notes_that_cannot_be_written() {
    let output = run(&["--notes", "/no/such/folder/notes"], &stream());
    assert_eq!(output.status.code(), Some(1));
    assert!(output.stderr.starts_with(b"covered: "));
}
