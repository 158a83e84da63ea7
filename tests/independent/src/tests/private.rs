//! Request W10's private bytes: what is marked, and which sends go by a mark.

use super::record;
use crate::bench::{numbers, BenchOn, Record};
use crate::memory::{Layout, PacketAddress, PacketNumber, Paged, Private, Strips};
use crate::private::{run, Shown, Treatment};
use crate::wire::{self, Check};

type PrivateBench = BenchOn<Private<Paged>>;

const ALLOCATE: &[u8] = &[3, 0x0, 0x20];
const REMOVE_RX: &[u8] = &[3, 0x0, 0x60];
const RELEASE_RX: &[u8] = &[3, 0x0, 0x80];
const ENQUEUE: &[u8] = &[3, 0x0, 0xc0];
const ACKNOWLEDGE: &[u8] = &[3, 0xc, 2];
const READ_WORD: &[u8] = &[2, 0x8];
const SEND: &[u8] = &[7];
const LATE_COLLISION: &[u8] = &[7, 2];
/// TXENA and RXEN set, bank 2.
const SETUP: [&[u8]; 3] = [&[4, 0x0, 1], &[4, 0x4, 0, 1], &[3, 0xe, 2]];

/// Records that are done, each from its leading bytes.
fn play<L: Layout>(bench: &mut BenchOn<L>, records: &[&[u8]]) {
    for bytes in records {
        let (answer, _) = numbers(bench.step(&record(bytes)));
        assert_eq!(answer, 0, "{bytes:02x?}");
    }
}

fn start<L: Layout>() -> BenchOn<Private<L>> {
    let mut bench = BenchOn::default();
    play(&mut bench, &SETUP);
    bench
}

/// A broadcast frame of so many bytes, with its FCS.
fn frame(length: usize) -> Vec<Record> {
    let mut bytes = vec![0xff; length];
    wire::end(&mut bytes, Check::Right);
    let pieces = bytes.chunks(6);
    let wire = pieces.map(|piece| record(&[&[5, piece.len() as u8], piece].concat()));
    wire.chain([record(&[6])]).collect()
}

fn arrive<L: Layout>(bench: &mut BenchOn<L>, length: usize) {
    for record in frame(length) {
        assert_eq!(bench.step(&record), Ok(0));
    }
}

/// Words from an address of a packet on.
fn load<L: Layout>(bench: &mut BenchOn<L>, packet: u8, address: u16, words: &[u16]) {
    let [low, high] = (address | 0x4000).to_le_bytes();
    play(bench, &[&[3, 0x2, packet], &[4, 0x6, low, high]]);
    for word in words {
        let [low, high] = word.to_le_bytes();
        play(bench, &[&[4, 0x8, low, high]]);
    }
}

fn enqueue<L: Layout>(bench: &mut BenchOn<L>, packet: u8) {
    play(bench, &[&[3, 0x2, packet], ENQUEUE]);
}

/// Where a packet has private bytes.
fn private<L: Layout>(bench: &BenchOn<Private<L>>, number: u8) -> Vec<u16> {
    let packets = &bench.chip.packets;
    let packet = PacketNumber::new(packets.part(), number).unwrap();
    (0..packets.size(packet) as u16)
        .filter(|&at| packets.is_private(packet, PacketAddress(at)))
        .collect()
}

/// By which private bytes a record goes.
fn uncovered<L: Layout>(bench: &BenchOn<Private<L>>, bytes: &[u8]) -> Vec<u16> {
    let found = bench.uncovered(&record(bytes));
    let addresses = found.map_or(Vec::new(), |bytes| bytes.addresses);
    addresses.into_iter().map(|address| address.0).collect()
}

/// A frame of two pages is released, and its second page is packet 1's first.
fn second_page(bench: &mut PrivateBench, length: usize) {
    arrive(bench, length);
    play(bench, &[RELEASE_RX, ALLOCATE, ALLOCATE]);
}

/// "stored as a frame's byte from 6 on (not the status, count, first six bytes or
/// trailer)", of even and odd length, with FCS and without.
#[test]
fn what_a_frame_brings() {
    let lengths = [
        (64, 0, 10..68),
        (65, 0, 10..69),
        (64, 2, 10..64),
        (65, 2, 10..65),
    ];
    for (length, strip, expected) in lengths {
        let mut bench = start::<Paged>();
        play(
            &mut bench,
            &[&[3, 0xe, 0], &[3, 0x5, 1 | strip], &[3, 0xe, 2]],
        );
        arrive(&mut bench, length);
        assert_eq!(private(&bench, 0), expected.collect::<Vec<_>>());
    }
}

#[test]
fn a_received_packet_is_sent_on_as_it_is() {
    let after = [REMOVE_RX, ENQUEUE, SEND].map(record);
    for length in [64, 65, 300] {
        let stream = [&SETUP.map(record)[..], &frame(length), &after].concat();
        let run = run::<Paged>(&stream, Treatment::LeaveOut);
        assert_eq!(run.records, stream);
        assert_eq!(run.uncovered, []);
        let private = length - 6;
        assert_eq!(run.shown.last(), Some(&Shown::Sent { private, length }));
    }
}

/// The byte at the count less 1 is the frame's trailer at 70 alone; where the count
/// is odd, short or past the pages there is none.
#[test]
fn a_count_that_makes_payload_the_control_byte() {
    let counts: [(u16, &[u16]); 8] = [
        (70, &[]),
        (68, &[67]),
        (12, &[11]),
        (72, &[]),
        (67, &[]),
        (10, &[]),
        (258, &[]),
        (256, &[]),
    ];
    for (count, expected) in counts {
        let mut bench = start::<Paged>();
        arrive(&mut bench, 64);
        play(&mut bench, &[REMOVE_RX]);
        load(&mut bench, 0, 2, &[count]);
        enqueue(&mut bench, 0);
        assert_eq!(uncovered(&bench, SEND), expected, "count {count}");
    }
}

/// Its count is FFFFh, all of it payload.
#[test]
fn a_second_page_as_a_first() {
    let mut bench = start();
    second_page(&mut bench, 300);
    assert_eq!(private(&bench, 0), (10..256).collect::<Vec<_>>());
    assert_eq!(private(&bench, 1), (0..48).collect::<Vec<_>>());
    enqueue(&mut bench, 1);
    assert_eq!(uncovered(&bench, SEND), [2, 3, 4, 5, 6, 7, 8, 9]);
}

/// The frame's first page has its count, 306, which is refused with 19.
#[test]
fn a_first_page_as_a_first() {
    let mut bench = start();
    second_page(&mut bench, 300);
    enqueue(&mut bench, 0);
    assert_eq!(uncovered(&bench, SEND), []);
    assert_eq!(numbers(bench.step(&record(SEND))), (19, 306));
}

/// Byte by byte: the count, the destination, the control byte.
#[test]
fn a_data_write_covers() {
    let mut bench = start();
    second_page(&mut bench, 300);
    load(&mut bench, 1, 2, &[12]);
    enqueue(&mut bench, 1);
    assert_eq!(uncovered(&bench, SEND), [4, 5, 6, 7, 8, 9, 11]);
    load(&mut bench, 1, 4, &[0, 0]);
    assert_eq!(uncovered(&bench, SEND), [8, 9, 11]);
    load(&mut bench, 1, 9, &[0]);
    assert_eq!(uncovered(&bench, SEND), [8, 11]);
    load(&mut bench, 1, 8, &[0]);
    assert_eq!(uncovered(&bench, SEND), [11]);
    load(&mut bench, 1, 11, &[0]);
    assert_eq!(uncovered(&bench, SEND), []);
    assert_eq!(private(&bench, 1)[..4], [0, 1, 13, 14]);
}

/// Nobody's bytes: all zero, so the count is refused with 18.
#[test]
fn a_page_never_written() {
    let mut bench = start::<Paged>();
    play(&mut bench, &[ALLOCATE]);
    enqueue(&mut bench, 0);
    assert_eq!(uncovered(&bench, SEND), []);
    assert_eq!(numbers(bench.step(&record(SEND))), (18, 0));
}

/// "a status word of a send", good or failed, is written over two private bytes.
#[test]
fn a_status_word_is_open() {
    for send in [SEND, LATE_COLLISION] {
        let mut bench = start();
        second_page(&mut bench, 300);
        load(&mut bench, 1, 2, &[12, 0, 0, 0, 0]);
        enqueue(&mut bench, 1);
        assert_eq!(private(&bench, 1)[..3], [0, 1, 12]);
        play(&mut bench, &[send]);
        assert_eq!(private(&bench, 1)[0], 12);
    }
}

/// "another frame's status/count/first six/trailer"; its payload is private again.
#[test]
fn a_frame_over_another() {
    let mut bench = start::<Paged>();
    arrive(&mut bench, 500);
    play(&mut bench, &[RELEASE_RX, ALLOCATE]);
    arrive(&mut bench, 64); // into the second page
    let expected = (10..68).chain(70..248).collect::<Vec<_>>();
    assert_eq!(private(&bench, 1), expected);
    load(&mut bench, 1, 20, &[0]); // at the head of RX, and written
    assert_eq!(private(&bench, 1).len(), expected.len() - 2);
}

/// Those refused with 11 or 12 do not come to their count; 14 is behind it.
#[test]
fn sends_that_come_to_their_count() {
    let mut bench = start();
    second_page(&mut bench, 300);
    assert_eq!(uncovered(&bench, SEND), []); // 12: TX is empty
    for send in 0..24 {
        load(&mut bench, 0, 2, &[12, 0, 0, 0, 0]);
        enqueue(&mut bench, 0);
        assert_eq!(uncovered(&bench, SEND), [], "send {send}");
        play(&mut bench, &[SEND]);
    }
    enqueue(&mut bench, 1);
    assert_eq!(uncovered(&bench, SEND).len(), 8);
    load(&mut bench, 1, 2, &[12, 0, 0, 0]);
    assert_eq!(uncovered(&bench, SEND), [11]); // it would be refused with 14
    assert_eq!(uncovered(&bench, &[7, 6]), []); // 11
    assert_eq!(uncovered(&bench, &[7, 1, 3]), []); // 11
    assert_eq!(uncovered(&bench, &[1, 7]), []);
    play(&mut bench, &[ACKNOWLEDGE, &[3, 0xe, 0], &[3, 0x0, 0]]);
    assert_eq!(uncovered(&bench, SEND), []); // 12: TXENA is clear
}

#[test]
fn the_older_part_too() {
    let mut bench = PrivateBench::default();
    play(&mut bench, &[&[9, 0x94]]);
    play(&mut bench, &SETUP);
    second_page(&mut bench, 300);
    assert_eq!(private(&bench, 1), (0..48).collect::<Vec<_>>());
    enqueue(&mut bench, 1);
    assert_eq!(uncovered(&bench, SEND), [2, 3, 4, 5, 6, 7, 8, 9]);
}

/// On strips packet 1 has bytes of its own, which nobody wrote.
#[test]
fn a_strip_keeps_its_marks() {
    let mut bench = start::<Strips>();
    arrive(&mut bench, 300);
    play(&mut bench, &[RELEASE_RX, ALLOCATE, ALLOCATE]);
    assert_eq!(private(&bench, 0), (10..256).collect::<Vec<_>>());
    assert_eq!(private(&bench, 1), []);
    enqueue(&mut bench, 1);
    assert_eq!(uncovered(&bench, SEND), []);
}

/// Marks stay over 40h and a soft reset, as the bytes do.
#[test]
fn a_reset_keeps_the_marks() {
    let resets: [&[&[u8]]; 2] = [
        &[&[3, 0x0, 0x40]],
        &[
            &[3, 0xe, 0],
            &[4, 0x4, 0x00, 0x80],
            &[4, 0x4, 0, 0],
            &[3, 0xe, 2],
        ],
    ];
    for reset in resets {
        let mut bench = start::<Paged>();
        arrive(&mut bench, 300);
        play(&mut bench, reset);
        play(&mut bench, &[ALLOCATE, ALLOCATE]);
        assert_eq!(private(&bench, 1), (0..48).collect::<Vec<_>>());
    }
}

/// The records of a send of packet 1, whose page was a frame's second.
fn stream() -> Vec<Record> {
    let after: [&[u8]; 7] = [
        RELEASE_RX,
        ALLOCATE,
        ALLOCATE,
        &[3, 0x2, 1],
        ENQUEUE,
        SEND,
        SEND,
    ];
    [&SETUP.map(record)[..], &frame(300), &after.map(record)].concat()
}

/// Left out and not played, the packet is still in TX; played, it is refused
/// with 13 and is there as well.
#[test]
fn sends_are_left_out() {
    let stream = stream();
    let left = run::<Paged>(&stream, Treatment::LeaveOut);
    assert_eq!(left.records, stream[..stream.len() - 2]);
    assert_eq!(left.shown.len(), left.records.len());
    let played = run::<Paged>(&stream, Treatment::Play);
    assert_eq!(played.records, stream);
    assert_eq!(played.uncovered, left.uncovered);
    let numbers: Vec<_> = left.uncovered.iter().map(|send| send.number).collect();
    assert_eq!(numbers, [60, 61]);
    assert_eq!(
        left.uncovered[0].line(),
        "record 60: the send of packet 1 goes by private bytes: 2 (byte count), \
         3 (byte count), 4 (destination), 5 (destination), 6 (destination), \
         7 (destination), 8 (destination), 9 (destination)\n"
    );
}

/// How many bytes of a data read are private, if it is done.
#[test]
fn what_a_record_shows() {
    let reads: [&[u8]; 6] = [
        REMOVE_RX,
        &[4, 0x6, 0x08, 0x60], // from address 8 on
        READ_WORD,
        &[1, 0x8], // 10
        READ_WORD, // 11 and 12
        &[1, 0x4],
    ];
    let stream = [&SETUP.map(record)[..], &frame(64), &reads.map(record)].concat();
    let shown = run::<Paged>(&stream, Treatment::Play).shown;
    let lines: String = shown
        .iter()
        .rev()
        .take(5)
        .map(|shown| shown.line())
        .collect();
    assert_eq!(lines, "other\nread 2\nread 1\nread 0\nother\n");
}
