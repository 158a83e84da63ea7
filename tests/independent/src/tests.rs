//! The cases that documents 01 and 02 themselves name.

mod counts;
mod crc;
mod fcs;
mod link;
mod part;
mod private;
mod streams;
mod strips;
mod waiting;
mod watch;
mod written;

use crate::address::MacAddress;
use crate::bench::{numbers, push_line, Bench, Record};
use crate::chip::{Chip, Pointer};
use crate::frame::{byte_count, pages_needed, Arrival};
use crate::memory::PacketNumber;
use crate::refusal::Refusal;
use crate::registers::Width::{Byte, Word};
use crate::send::{SendEnd, OUTPUT_SIZE};
use crate::told::tell;
use crate::wire::{self, Check};

const RX: u16 = Pointer::RECEIVE | Pointer::AUTO_INCREMENT | Pointer::READ;
const LOAD: u16 = Pointer::AUTO_INCREMENT;
const LOOK: u16 = Pointer::AUTO_INCREMENT | Pointer::READ;

const ALLOCATE: u8 = 0x20;
const RELEASE_RX: u16 = 0x80;
const ENQUEUE: u16 = 0xc0;

fn record(bytes: &[u8]) -> Record {
    let mut record = [0; 8];
    record[..bytes.len()].copy_from_slice(bytes);
    record
}

fn bank(chip: &mut Chip, bank: u16) {
    chip.write(Byte, 0xe, bank).unwrap();
}

/// A word write in the bank named.
fn put(chip: &mut Chip, at: (u16, u8), value: u16) {
    bank(chip, at.0);
    chip.write(Word, at.1, value).unwrap();
}

fn get(chip: &mut Chip, at: (u16, u8)) -> u16 {
    bank(chip, at.0);
    chip.read(Word, at.1).unwrap()
}

const TCR: (u16, u8) = (0, 0x0);
const EPHSR: (u16, u8) = (0, 0x2);
const RCR: (u16, u8) = (0, 0x4);
const ECR: (u16, u8) = (0, 0x6);
const MIR: (u16, u8) = (0, 0x8);
const CONTROL: (u16, u8) = (1, 0xc);
const COMMAND: (u16, u8) = (2, 0x0);
const PACKET: (u16, u8) = (2, 0x2);
const POINTER: (u16, u8) = (2, 0x6);
const DATA: (u16, u8) = (2, 0x8);

fn allocate(chip: &mut Chip, pages: u8) {
    put(chip, COMMAND, u16::from(ALLOCATE + pages - 1));
}

fn result(chip: &mut Chip) -> u16 {
    get(chip, PACKET) >> 8
}

fn word_at(chip: &mut Chip, pointer: u16) -> u16 {
    put(chip, POINTER, pointer);
    get(chip, DATA)
}

/// A packet 0 with a usable count in TX.
fn loaded(count: u16) -> Chip {
    let mut chip = Chip::default();
    put(&mut chip, TCR, 1);
    allocate(&mut chip, 8);
    put(&mut chip, POINTER, LOAD | 2);
    put(&mut chip, DATA, count);
    put(&mut chip, COMMAND, ENQUEUE);
    chip
}

fn send(chip: &mut Chip, outcome: u8, collisions: u8, deferral: u8) -> Result<u16, Refusal> {
    let mut output = [0; OUTPUT_SIZE];
    SendEnd::new(outcome, collisions, deferral).and_then(|end| chip.send(end, &mut output))
}

/// Some bytes, the last four of them the FCS of the rest.
fn frame_of(length: usize) -> Vec<u8> {
    let mut frame: Vec<u8> = (0..length).map(|at| at as u8).collect();
    wire::end(&mut frame, Check::Right);
    frame
}

/// The records that document 01 shows the lines of.
const EXAMPLE: [&[u8]; 10] = [
    &[0x02, 0x0e],
    &[0x02, 0x08],
    &[0x03, 0x0e, 0x02],
    &[0x03, 0x00, 0x25],
    &[0x01, 0x03],
    &[0x01, 0x0c],
    &[0x03, 0x00, 0xa0],
    &[0x03, 0x00, 0xa0],
    &[0x02, 0x09],
    &[0x02, 0x04],
];

#[test]
fn worked_example() {
    let expected = "1 0 3300\n2 0 1818\n3 0 0000\n4 0 0000\n5 0 0000\n\
                    6 0 000c\n7 0 0000\n8 5 0000\n9 1 0000\n10 0 8080\n";
    let mut bench = Bench::default();
    let mut lines = Vec::new();
    for (number, bytes) in (1..).zip(EXAMPLE) {
        let answer = bench.step(&record(bytes));
        push_line(&mut lines, number, answer);
    }
    assert_eq!(String::from_utf8(lines).unwrap(), expected);
}

#[test]
fn lines_reach_the_last_record_number() {
    let mut lines = Vec::new();
    push_line(&mut lines, u64::MAX, Err(Refusal::BadRecord));
    push_line(&mut lines, 100, Ok(0xa0bf));
    assert_eq!(lines, b"18446744073709551615 17 0000\n100 0 a0bf\n");
}

/// "n to count and pages".
const COUNTS: [(usize, usize, usize); 8] = [
    (64, 70, 1),
    (65, 70, 1),
    (250, 256, 1),
    (251, 256, 1),
    (252, 258, 2),
    (1_530, 1_536, 6),
    (1_531, 1_536, 6),
    (1_532, 1_538, 7),
];

#[test]
fn count_and_pages_either_side() {
    for (n, count, pages) in COUNTS {
        assert_eq!(byte_count(n), count, "count of {n}");
        assert_eq!(pages_needed(n), pages, "pages of {n}");
    }
}

#[test]
fn stored_frames_either_side() {
    for (n, count, pages) in COUNTS {
        let mut chip = Chip::default();
        put(&mut chip, RCR, 0x0102);
        let frame = frame_of(n);
        assert_eq!(chip.arrive(&frame, false), Ok(Arrival::Stored));
        assert_eq!(get(&mut chip, MIR), ((24 - pages) << 8 | 0x18) as u16);
        assert_eq!(usize::from(word_at(&mut chip, RX | 2)), count);
        let last = word_at(&mut chip, RX | (count as u16 - 2));
        let expected = match n % 2 {
            0 => 0x4000,
            _ => 0x6000 | u16::from(frame[n - 1]),
        };
        assert_eq!(last, expected, "trailer of {n}");
    }
}

#[test]
fn pointer_wraps_at_2048() {
    assert_eq!(Pointer(LOAD | 2_046).after(2), Pointer(LOAD));
    assert_eq!(Pointer(LOAD | 2_047).after(1), Pointer(LOAD));
    let mut chip = Chip::default();
    allocate(&mut chip, 8);
    word_at(&mut chip, LOOK | 2_046);
    assert_eq!(get(&mut chip, POINTER), LOOK);
    put(&mut chip, POINTER, LOOK | 2_047);
    chip.read(Byte, 0xa).unwrap();
    assert_eq!(get(&mut chip, POINTER), LOOK);
}

#[test]
fn word_at_2047_is_past_the_pages() {
    let mut chip = Chip::default();
    allocate(&mut chip, 8);
    put(&mut chip, POINTER, LOOK | 2_047);
    assert_eq!(chip.read(Word, 8), Err(Refusal::PastPages));
    assert_eq!(get(&mut chip, POINTER), LOOK | 2_047);
}

#[test]
fn length_1533_is_too_long() {
    let mut chip = Chip::default();
    put(&mut chip, RCR, 0x0102);
    assert_eq!(chip.arrive(&frame_of(1_533), false), Ok(Arrival::TooLong));
    assert_eq!(get(&mut chip, RCR), 0x0103);
    assert!(!chip.registers.rx_overrun);
    assert_eq!(chip.arrive(&frame_of(1_532), false), Ok(Arrival::Stored));
}

#[test]
fn twenty_five_sends_fill_completion() {
    let mut chip = loaded(12);
    for _ in 0..24 {
        assert_eq!(send(&mut chip, 0, 0, 0), Ok(10));
        put(&mut chip, COMMAND, ENQUEUE);
    }
    assert_eq!(send(&mut chip, 0, 0, 0), Err(Refusal::CompletionFull));
    assert_eq!(chip.tx.port(), 0);
    put(&mut chip, CONTROL, 0x0800);
    assert_eq!(
        send(&mut chip, 0, 0, 0),
        Ok(10),
        "a released packet joins nothing"
    );
}

#[test]
fn allocation_without_pages_reads_80h() {
    let mut chip = Chip::default();
    for packet in 0..3 {
        allocate(&mut chip, 8);
        assert_eq!(result(&mut chip), packet);
    }
    assert_eq!(get(&mut chip, MIR), 0x0018);
    allocate(&mut chip, 1);
    assert_eq!(result(&mut chip), 0x80);
}

/// The data sheet's "Examples of the address mapping".
#[test]
fn hash_examples() {
    let examples = [
        (0xed, 0b000_000),
        (0x0d, 0b010_000),
        (0x01, 0b100_111),
        (0x2f, 0b111_111),
    ];
    for (first, hash) in examples {
        let address = MacAddress([first, 0, 0, 0, 0, 0]);
        assert_eq!(address.hash().get(), hash, "address {first:02x}");
        let mut table = [0; 8];
        table[usize::from(hash >> 3)] = 1 << (hash & 7);
        assert!(address.hash().is_set_in(&table));
    }
}

#[test]
fn words_cross_pages_that_are_not_adjacent() {
    let mut chip = Chip::default();
    allocate(&mut chip, 1); // packet 0, page 0
    allocate(&mut chip, 1); // packet 1, page 1
    put(&mut chip, COMMAND, 0xa0); // page 0 is free again
    allocate(&mut chip, 2); // packet 0, pages 0 and 2
    put(&mut chip, POINTER, LOAD | 255);
    put(&mut chip, DATA, 0xbbaa);
    assert_eq!(word_at(&mut chip, LOOK | 255), 0xbbaa);
    put(&mut chip, PACKET, 1);
    assert_eq!(word_at(&mut chip, LOOK), 0, "packet 1 keeps its bytes");
}

#[test]
fn remove_and_release_takes_the_rx_head() {
    let mut chip = Chip::default();
    allocate(&mut chip, 1);
    put(&mut chip, RCR, 0x0102);
    chip.arrive(&frame_of(64), false).unwrap();
    put(&mut chip, COMMAND, RELEASE_RX);
    assert_eq!(get(&mut chip, MIR), 0x1718);
    assert_eq!(chip.selected_packet().map(PacketNumber::get), Some(0));
}

#[test]
fn a_failed_single_collision_is_not_counted() {
    let mut chip = loaded(12);
    put(&mut chip, TCR, 0x1001);
    assert_eq!(send(&mut chip, 4, 1, 0), Ok(10));
    assert_eq!(get(&mut chip, ECR), 0);
    assert_eq!(get(&mut chip, EPHSR), 0x0022);
    assert_eq!(get(&mut chip, TCR), 0x1000);
    assert_eq!(word_at(&mut chip, LOOK), 0x0022);
}

#[test]
fn counters_stop_at_fifteen() {
    let mut chip = loaded(12);
    for _ in 0..17 {
        put(&mut chip, CONTROL, 0x0040);
        assert_eq!(send(&mut chip, 0, 1, 2), Ok(10));
        put(&mut chip, COMMAND, ENQUEUE);
    }
    assert_eq!(get(&mut chip, EPHSR), 0x1001);
    assert_eq!(chip.interrupt_status(), 0x2e);
    assert_eq!(get(&mut chip, ECR), 0xf00f);
    assert_eq!(get(&mut chip, EPHSR), 0x0001);
}

#[test]
fn padding_reaches_sixty() {
    let mut bench = Bench {
        chip: loaded(14),
        ..Bench::default()
    };
    put(&mut bench.chip, POINTER, LOAD | 4);
    for value in [0x1111, 0x1111, 0x1111, 0x1111, 0x2011] {
        put(&mut bench.chip, DATA, value);
    }
    put(&mut bench.chip, TCR, 0x0081);
    assert_eq!(bench.step(&record(&[7])), Ok(64));
    assert_eq!(bench.output[..9], [0x11; 9]);
    assert_eq!(bench.output[9..60], [0; 51]);
    assert_eq!(bench.output[60..64], [0x76, 0x9f, 0xfc, 0x3c]); // zlib's
    assert_eq!(bench.output[64..], [0; OUTPUT_SIZE - 64]);
}

#[test]
fn soft_reset_keeps_station_and_memory() {
    let mut chip = loaded(12);
    put(&mut chip, (1, 4), 0x1234);
    put(&mut chip, RCR, 0x8101);
    assert_eq!(chip.registers.bank, 0);
    assert_eq!(get(&mut chip, RCR), 0x8000);
    assert_eq!(get(&mut chip, (1, 4)), 0x1234);
    assert_eq!(chip.interrupt_status(), 0x04);
    put(&mut chip, RCR, 0x0101);
    assert_eq!(
        get(&mut chip, RCR),
        0x0100,
        "RX_ABORT is never set by a write"
    );
    allocate(&mut chip, 1);
    assert_eq!(
        word_at(&mut chip, LOOK | 2),
        12,
        "bytes of freed pages stay"
    );
}

#[test]
fn read_only_halves() {
    let mut chip = Chip::default();
    let refused =
        |chip: &mut Chip, width, offset| chip.write(width, offset, 0) == Err(Refusal::ReadOnly);
    let bytes_of = |chip: &mut Chip, at: u16| -> Vec<u8> {
        bank(chip, at);
        (0..16)
            .filter(|&offset| refused(chip, Byte, offset))
            .collect()
    };
    assert_eq!(bytes_of(&mut chip, 0), [2, 3, 6, 7, 8, 9, 0xb, 0xf]);
    bank(&mut chip, 0);
    assert!([2, 6, 8]
        .iter()
        .all(|&offset| refused(&mut chip, Word, offset)));
    assert_eq!(chip.write(Word, 0xa, 0x1234), Ok(()));
    assert_eq!(chip.read(Word, 0xa), Ok(0x3334));
    assert_eq!(bytes_of(&mut chip, 2), [1, 3, 4, 5, 0xf]);
    bank(&mut chip, 2);
    assert!(refused(&mut chip, Word, 4));
    assert_eq!(bytes_of(&mut chip, 6), [0xf]);
    bank(&mut chip, 6);
    assert_eq!(chip.read(Byte, 3), Ok(0x33));
    assert_eq!(chip.read(Word, 0xc), Ok(0x3333));
    bank(&mut chip, 4);
    assert_eq!(chip.read(Byte, 0), Err(Refusal::NotModelled));
}

#[test]
fn records_outside_the_limits() {
    let mut bench = Bench::default();
    let mut answer = |bytes: &[u8]| numbers(bench.step(&record(bytes)));
    assert_eq!(answer(&[0]), (17, 0));
    assert_eq!(answer(&[10]), (17, 0));
    assert_eq!(answer(&[5, 0]), (11, 0));
    assert_eq!(answer(&[5, 7]), (11, 0));
    for _ in 0..341 {
        assert_eq!(answer(&[5, 6]), (0, 0));
    }
    assert_eq!(answer(&[5, 3]), (11, 0), "2,049 would gather");
    assert_eq!(answer(&[5, 2]), (0, 0));
    assert_eq!(answer(&[5, 1]), (11, 0));
    assert_eq!(answer(&[6]), (0, 1));
    assert_eq!(answer(&[6]), (11, 0), "gathering was emptied");
    assert_eq!(answer(&[7, 1, 15]), (11, 0));
    assert_eq!(answer(&[7, 0, 16]), (11, 0));
    assert_eq!(answer(&[7, 0, 0, 3]), (11, 0));
    assert_eq!(answer(&[7, 6]), (11, 0));
    assert_eq!(answer(&[7]), (12, 0));
}

/// A good send to a group address: answer, value, line and the bytes put out.
#[test]
fn a_send_is_told_whole() {
    let records = [
        &[4, 0x0, 1, 0][..], // TXENA
        &[3, 0xe, 2],
        &[4, 0xc, 0, 4], // mask of TX EMPTY
        &[3, 0x0, 0x20], // one page
        &[4, 0x6, 2, 0x40],
        &[4, 0x8, 12, 0], // byte count
        &[4, 0x8, 0xab, 0xcd],
        &[3, 0x0, 0xc0],
        &[7, 0, 0, 0],
    ];
    let told = tell(&records.map(record));
    let lines: Vec<Vec<&str>> = told.lines().map(|line| line.split(' ').collect()).collect();
    assert_eq!(lines[1][..4], ["2", "0", "0000", "0"]);
    assert_eq!(lines[2][..4], ["3", "0", "0000", "1"]);
    assert_eq!(lines[8][..4], ["9", "0", "000a", "1"]);
    assert_eq!(lines[8][7], "abcd00000000e46c9cd3"); // the FCS is zlib's
    assert!(lines[11][1].starts_with("abcd00000000e46c9cd3"));
    assert!(lines[12][1].starts_with("09000c00abcd"));
}
