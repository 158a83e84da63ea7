//! "Which fault in the byte count."

use super::{allocate, get, put, record, word_at};
use super::{COMMAND, CONTROL, DATA, ENQUEUE, LOAD, LOOK, PACKET, POINTER, TCR};
use crate::bench::{numbers, push_line, Bench};
use crate::refusal::Refusal;
use crate::registers::Width::Byte;
use crate::send::OUTPUT_SIZE;
use crate::told::{pool, registers, tell};

/// The heads of completion and RX.
const HEADS: (u16, u8) = (2, 0x4);

/// Packet 0 of so many pages is in TX, its count never written.
fn queued(pages: u8) -> Bench {
    let mut bench = Bench::default();
    put(&mut bench.chip, TCR, 1);
    allocate(&mut bench.chip, pages);
    put(&mut bench.chip, COMMAND, ENQUEUE);
    bench
}

/// Writes the count of the packet in the packet number register.
fn set_count(bench: &mut Bench, count: u16) {
    put(&mut bench.chip, POINTER, LOAD | 2);
    put(&mut bench.chip, DATA, count);
}

fn send(bench: &mut Bench) -> (u8, u16) {
    numbers(bench.step(&record(&[7])))
}

fn send_with(bench: &mut Bench, count: u16) -> (u8, u16) {
    set_count(bench, count);
    send(bench)
}

/// Counts with the number that each gets in a packet of one page.
const IN_ONE_PAGE: [(u16, u8); 22] = [
    (0, 18),
    (1, 13),
    (2, 18),
    (9, 13),
    (10, 18),
    (11, 13),
    (12, 0),
    (13, 13),
    (14, 0),
    (254, 0),
    (255, 13),
    (256, 0),
    (257, 13),
    (258, 19),
    (259, 13),
    (0x0800, 19),
    (0x7fff, 13),
    (0x8000, 19),
    (0x8001, 13),
    (0x800c, 19),
    (0xfffe, 19),
    (0xffff, 13),
];

/// "We want them told apart, and the offending count as the answer's value in
/// all three." Where there is none the value is the length, c − 6, and the
/// four bytes of the FCS.
#[test]
fn counts_either_side_of_each_limit() {
    for (count, number) in IN_ONE_PAGE {
        let value = if number == 0 { count - 6 + 4 } else { count };
        let mut bench = queued(1);
        assert_eq!(send_with(&mut bench, count), (number, value), "{count}");
    }
}

/// "19 past the pages", be they one or eight.
#[test]
fn the_last_count_within_the_pages() {
    for pages in 1..=8 {
        let size = 256 * u16::from(pages);
        for (count, number) in [
            (size - 1, 13),
            (size + 1, 13),
            (size + 2, 19),
            (size + 256, 19),
        ] {
            let answer = send_with(&mut queued(pages), count);
            assert_eq!(answer, (number, count), "{count} in {pages} pages");
        }
        assert_eq!(send_with(&mut queued(pages), size), (0, size - 6 + 4));
    }
}

/// "At power-up the memory is 6,144 zero bytes."
#[test]
fn a_count_never_written_is_under_12() {
    assert_eq!(send(&mut queued(1)), (18, 0));
}

/// "in that order, where 13 stood": behind 11 and 12, before 14.
#[test]
fn the_order_of_sends() {
    let mut bench = queued(1);
    assert_eq!(send_with(&mut bench, 12), (0, 10));
    for _ in 1..24 {
        put(&mut bench.chip, COMMAND, ENQUEUE);
        assert_eq!(send(&mut bench), (0, 10));
    }
    put(&mut bench.chip, COMMAND, ENQUEUE);
    for (count, number) in [(13, 13), (11, 13), (257, 13), (10, 18), (258, 19)] {
        put(&mut bench.chip, TCR, 1);
        assert_eq!(send_with(&mut bench, count), (number, count));
        let outside = bench.step(&record(&[7, 6]));
        assert_eq!(numbers(outside), (11, 0), "{count}");
        put(&mut bench.chip, TCR, 0);
        assert_eq!(send(&mut bench), (12, 0), "{count}");
    }
    put(&mut bench.chip, TCR, 1);
    assert_eq!(send_with(&mut bench, 12), (14, 0));
    // released at once, a good send needs no place, but still a count
    put(&mut bench.chip, CONTROL, 0x0800);
    assert_eq!(send_with(&mut bench, 258), (19, 258));
    assert_eq!(send_with(&mut bench, 12), (0, 10));
}

/// Registers, pool, memory and output buffer.
fn whole(bench: &Bench) -> (Vec<u32>, Vec<u32>, Vec<u8>, [u8; OUTPUT_SIZE]) {
    let chip = &bench.chip;
    let memory = chip.packets.bytes().to_vec();
    (registers(&chip.registers), pool(chip), memory, bench.output)
}

/// "A refusal .. changes nothing", by whatever outcome; and the send that
/// follows is done as if there had been none.
#[test]
fn a_refused_count_changes_nothing() {
    let mut bench = queued(2);
    assert_eq!(send_with(&mut bench, 300), (0, 298));
    put(&mut bench.chip, COMMAND, ENQUEUE);
    put(&mut bench.chip, (2, 0xc), 0x0204); // TX EMPTY acknowledged
    bench.output.fill(0xa5);
    for (count, number) in [(299, 13), (4, 18), (514, 19)] {
        set_count(&mut bench, count);
        let before = whole(&bench);
        for end in [
            [0, 1, 2],
            [1, 16, 1],
            [2, 0, 0],
            [3, 2, 0],
            [4, 0, 2],
            [5, 15, 0],
        ] {
            let answer = bench.step(&record(&[&[7][..], &end].concat()));
            assert_eq!(numbers(answer), (number, count));
            assert_eq!(bench.put_out(7, answer), None);
            assert!(whole(&bench) == before, "{count}, outcome {}", end[0]);
        }
    }
    assert_eq!(send_with(&mut bench, 12), (0, 10));
    assert_eq!(bench.output[..6], [0; 6]);
    // zlib's FCS, and what was there before
    assert_eq!(bench.output[6..11], [0xa3, 0xa1, 0xc2, 0xb1, 0xa5]);
    assert_eq!(get(&mut bench.chip, HEADS), 0x8000);
}

/// A packet in TX may still be written: by words, and by either byte.
#[test]
fn the_count_is_the_one_that_stands_there_now() {
    let mut bench = queued(1);
    assert_eq!(send_with(&mut bench, 10), (18, 0x000a));
    assert_eq!(send_with(&mut bench, 0x0103), (13, 0x0103));
    put(&mut bench.chip, POINTER, LOAD | 2);
    bench.chip.write(Byte, 0x8, 0x0a).unwrap();
    assert_eq!(send(&mut bench), (19, 0x010a));
    bench.chip.write(Byte, 0x8, 0xfe).unwrap();
    assert_eq!(send(&mut bench), (19, 0xfe0a));
    assert_eq!(send_with(&mut bench, 12), (0, 10));
    put(&mut bench.chip, COMMAND, ENQUEUE);
    assert_eq!(send_with(&mut bench, 11), (13, 11), "it was usable before");
    assert_eq!(word_at(&mut bench.chip, LOOK | 2), 11);
}

/// Nor is it another packet's: not the one sent before, nor the one behind it
/// in TX, nor the one that the packet number register names.
#[test]
fn the_count_is_that_of_the_tx_head() {
    let mut bench = queued(1);
    set_count(&mut bench, 14);
    for (packet, count) in [(1, 600), (2, 15), (3, 2)] {
        allocate(&mut bench.chip, 2);
        put(&mut bench.chip, PACKET, packet);
        set_count(&mut bench, count);
        put(&mut bench.chip, COMMAND, ENQUEUE);
    }
    put(&mut bench.chip, PACKET, 2);
    assert_eq!(send(&mut bench), (0, 12));
    assert_eq!(send(&mut bench), (19, 600));
    put(&mut bench.chip, PACKET, 1);
    assert_eq!(send_with(&mut bench, 512), (0, 510));
    assert_eq!(send(&mut bench), (13, 15));
    put(&mut bench.chip, PACKET, 2);
    assert_eq!(send_with(&mut bench, 16), (0, 14));
    assert_eq!(send(&mut bench), (18, 2));
}

/// "the offending count as the answer's value": all of its bits are printed.
#[test]
fn lines_show_the_whole_count() {
    let mut lines = Vec::new();
    push_line(&mut lines, 1, Err(Refusal::OddCount(0x8001)));
    push_line(&mut lines, 2, Err(Refusal::ShortCount(10)));
    push_line(&mut lines, 3, Err(Refusal::LongCount(0xfffe)));
    push_line(&mut lines, 4, Err(Refusal::CompletionFull));
    assert_eq!(lines, b"1 13 8001\n2 18 000a\n3 19 fffe\n4 14 0000\n");
}

/// A refused send is told by its line and the sum of the state alone.
#[test]
fn a_refused_count_is_told_without_bytes() {
    let records = [
        &[4, 0x0, 1, 0][..], // TXENA
        &[3, 0xe, 2],
        &[3, 0x0, 0x20],
        &[4, 0x6, 2, 0x40],
        &[4, 0x8, 0x02, 0x01],
        &[3, 0x0, 0xc0],
        &[7],
    ];
    let told = tell(&records.map(record));
    let lines: Vec<Vec<&str>> = told.lines().map(|line| line.split(' ').collect()).collect();
    assert_eq!(lines[6][..4], ["7", "19", "0102", "0"]);
    assert_eq!(lines[6][4..], lines[5][4..], "the state is the same");
    assert_eq!(lines[6].len(), 5);
}
