//! The lines of the program "watch".

use super::{record, EXAMPLE};
use crate::bench::{Bench, Record};
use crate::watch;

/// The watch's lines of records from power-up on.
fn watched(records: &[Record]) -> String {
    let mut bench = Bench::default();
    let mut lines = Vec::new();
    for (number, record) in (1..).zip(records) {
        let answer = bench.step(record);
        watch::push_line(&mut lines, number, record[0], answer, &bench);
    }
    String::from_utf8(lines).unwrap()
}

/// The mask stays 0, so the line stays down.
#[test]
fn worked_example_watched() {
    let expected = "1 0 3300 0\n2 0 1818 0\n3 0 0000 0\n4 0 0000 0\n5 0 0000 0\n\
                    6 0 000c 0\n7 0 0000 0\n8 5 0000 0\n9 1 0000 0\n10 0 8080 0\n";
    assert_eq!(watched(&EXAMPLE.map(record)), expected);
}

/// "The line is up when status and mask share a bit": TX EMPTY is set at
/// power-up, and the allocation result reads 80h.
#[test]
fn the_line_is_that_after_the_record() {
    let records = [
        &[3, 0xe, 2][..],
        &[3, 0xd, 0x04], // TX EMPTY
        &[10],
        &[2, 0xc],
        &[3, 0xc, 0x04], // acknowledged
        &[0],
        &[3, 0xd, 0x08], // allocation
        &[3, 0x0, 0x20],
        &[3, 0x0, 0x28], // reserved
        &[3, 0xd, 0xf7], // all but allocation
    ];
    let expected = "1 0 0000 0\n2 0 0000 1\n3 17 0000 1\n4 0 0404 1\n5 0 0000 0\n\
                    6 17 0000 0\n7 0 0000 0\n8 0 0000 1\n9 4 0000 1\n10 0 0000 0\n";
    assert_eq!(watched(&records.map(record)), expected);
}

/// Thirteen records that put packet 0 into TX, with a mask of the completion
/// FIFO. Its count is 16: 10 bytes of data, and an eleventh, 5A, if the control
/// byte says so.
fn ready(tcr: u8, control: u8) -> Vec<Record> {
    let records = [
        &[4, 0x0, tcr, 0][..],
        &[3, 0xe, 2],
        &[3, 0xd, 0x02],
        &[3, 0x0, 0x20],
        &[4, 0x6, 0x02, 0x40],
        &[4, 0x8, 16, 0],
        &[4, 0x8, 0x01, 0x23],
        &[4, 0x8, 0x45, 0x67],
        &[4, 0x8, 0x89, 0xab],
        &[4, 0x8, 0xcd, 0xef],
        &[4, 0x8, 0x0f, 0xf0],
        &[4, 0x8, 0x5a, control],
        &[3, 0x0, 0xc0],
    ];
    records.map(record).to_vec()
}

/// The lines from the fourteenth on, after those of `ready`.
fn watched_after(mut ready: Vec<Record>, records: &[&[u8]]) -> String {
    ready.extend(records.iter().map(|bytes| record(bytes)));
    let lines = watched(&ready);
    let expected = "1 0 0000 0\n2 0 0000 0\n3 0 0000 0\n4 0 0000 0\n5 0 0000 0\n\
                    6 0 0000 0\n7 0 0000 0\n8 0 0000 0\n9 0 0000 0\n10 0 0000 0\n\
                    11 0 0000 0\n12 0 0000 0\n13 0 0000 0\n";
    lines.strip_prefix(expected).unwrap().into()
}

/// "a space and the bytes put out as lower-case hex digits": ten bytes or, with
/// bit 5 of the control byte, eleven, and their FCS (here and below zlib's).
#[test]
fn a_send_shows_its_bytes() {
    let even = watched_after(ready(0x01, 0xdf), &[&[7]]);
    assert_eq!(even, "14 0 000e 1 0123456789abcdef0ff0cea7acba\n");
    let odd = watched_after(ready(0x01, 0x20), &[&[7]]);
    assert_eq!(odd, "14 0 000f 1 0123456789abcdef0ff05a7714da25\n");
}

/// "padding goes to 60 before an FCS".
#[test]
fn a_padded_send_shows_sixty_bytes_and_their_fcs() {
    let even = "14 0 0040 1 0123456789abcdef0ff0\
                00000000000000000000\
                00000000000000000000\
                00000000000000000000\
                00000000000000000000\
                00000000000000000000368959eb\n";
    assert_eq!(watched_after(ready(0x81, 0x00), &[&[7]]), even);
    let odd = "14 0 0040 1 0123456789abcdef0ff0\
               5a000000000000000000\
               00000000000000000000\
               00000000000000000000\
               00000000000000000000\
               00000000000000000000b21d7a54\n";
    assert_eq!(watched_after(ready(0x81, 0x20), &[&[7]]), odd);
}

/// "failed sends put out bytes too"; the next one finds TXENA clear.
#[test]
fn a_failed_send_shows_its_bytes() {
    let lines = watched_after(ready(0x81, 0x00), &[&[7, 1, 16], &[7]]);
    let expected = "14 0 0040 1 0123456789abcdef0ff0\
                    00000000000000000000\
                    00000000000000000000\
                    00000000000000000000\
                    00000000000000000000\
                    00000000000000000000368959eb\n\
                    15 12 0000 1\n";
    assert_eq!(lines, expected);
    let odd = watched_after(ready(0x01, 0x20), &[&[7, 5, 1, 2]]);
    assert_eq!(odd, "14 0 000f 1 0123456789abcdef0ff05a7714da25\n");
}

/// Only "a send that is done" has bytes: here 11 and 12.
#[test]
fn a_refused_send_shows_no_bytes() {
    let outside = watched_after(ready(0x01, 0x00), &[&[7, 6], &[7]]);
    assert_eq!(
        outside,
        "14 11 0000 0\n15 0 000e 1 0123456789abcdef0ff0cea7acba\n"
    );
    let disabled = watched_after(ready(0x80, 0x00), &[&[7]]);
    assert_eq!(disabled, "14 12 0000 0\n");
}

/// The value of 13, 18 and 19 is a count, and no length put out.
#[test]
fn an_offending_count_shows_no_bytes() {
    let records: [&[u8]; 9] = [
        &[4, 0x6, 0x02, 0x40],
        &[4, 0x8, 13, 0],
        &[7],
        &[4, 0x6, 0x02, 0x40],
        &[4, 0x8, 10, 0],
        &[7, 1, 16],
        &[4, 0x6, 0x02, 0x40],
        &[4, 0x8, 0x02, 0x01],
        &[7, 5, 1, 2],
    ];
    let lines = watched_after(ready(0x01, 0x00), &records);
    let expected = "14 0 0000 0\n15 0 0000 0\n16 13 000d 0\n17 0 0000 0\n18 0 0000 0\n\
                    19 18 000a 0\n20 0 0000 0\n21 0 0000 0\n22 19 0102 0\n";
    assert_eq!(lines, expected);
}

/// A packet that is released joins no completion FIFO, so the line stays down.
#[test]
fn a_released_packet_shows_its_bytes() {
    let release: [&[u8]; 3] = [&[3, 0xe, 1], &[4, 0xc, 0x00, 0x08], &[7]];
    let lines = watched_after(ready(0x01, 0x00), &release);
    let expected = "14 0 0000 0\n15 0 0000 0\n16 0 000e 0 0123456789abcdef0ff0cea7acba\n";
    assert_eq!(lines, expected);
}

/// Bytes of an earlier, longer send are not shown again.
#[test]
fn a_shorter_send_shows_its_own_bytes() {
    let records: [&[u8]; 6] = [
        &[7],
        &[3, 0xe, 0],
        &[3, 0x0, 0x01], // PAD_EN clear
        &[3, 0xe, 2],
        &[3, 0x0, 0xc0],
        &[7],
    ];
    let lines = watched_after(ready(0x81, 0x00), &records);
    assert!(lines.ends_with("\n19 0 000e 1 0123456789abcdef0ff0cea7acba\n"));
}

/// EPH: up by "EPHSR 15, 10, 9, 5, 4 while bit 0 is clear, and control bit 5",
/// down by a write to TCR that leaves TXENA set.
#[test]
fn a_failed_send_raises_the_line() {
    let records: [&[u8]; 6] = [
        &[3, 0xd, 0x20],
        &[3, 0xe, 1],
        &[4, 0xc, 0x20, 0x00],
        &[7, 2],
        &[3, 0xe, 0],
        &[3, 0x0, 0x01],
    ];
    let lines = watched_after(ready(0x01, 0x00), &records);
    let expected = "14 0 0000 0\n15 0 0000 0\n16 0 0000 0\n\
                    17 0 000e 1 0123456789abcdef0ff0cea7acba\n18 0 0000 1\n19 0 0000 0\n";
    assert_eq!(lines, expected);
}
