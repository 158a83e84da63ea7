//! Request W3: the strip chip, and the promise about it.

use std::collections::BTreeSet;

use super::record;
use crate::bench::{numbers, Answer, Bench, BenchOn, Record, StripBench};
use crate::chip::ChipOn;
use crate::fifo::Fifo;
use crate::generator::{self, Reading};
use crate::memory::{Layout, Marked, PacketNumber, Paged, Strips};
use crate::part::Part;
use crate::told;
use crate::watch;

/// The two chips side by side from power-up.
#[derive(Default)]
struct Pair {
    paged: BenchOn<Marked<Paged>>,
    strips: BenchOn<Marked<Strips>>,
}

impl Pair {
    fn step(&mut self, record: &Record) -> (Answer, Answer) {
        (self.paged.step(record), self.strips.step(record))
    }

    /// "the same .. queues and registers as the paged chip", and the free pages
    /// and the packets' too.
    fn agree_in_state(&self) {
        assert_eq!(state(&self.paged.chip), state(&self.strips.chip));
    }

    /// "the two agree on every byte so written".
    fn agree_on_written_bytes(&self) {
        let (paged, strips) = (&self.paged.chip.packets, &self.strips.chip.packets);
        for packet in PacketNumber::all(paged.part()) {
            assert!(paged.written(packet).eq(strips.written(packet)));
            for address in paged.written(packet) {
                assert_eq!(paged.byte(packet, address), strips.byte(packet, address));
            }
        }
    }
}

/// Registers, page counts and queues.
fn state<L: Layout>(chip: &ChipOn<L>) -> Vec<u32> {
    let pages = PacketNumber::all(chip.part()).map(|packet| chip.packets.page_count(packet));
    let queue = |fifo: &Fifo| fifo.entries().map(|packet| packet.get()).collect();
    let queues: [Vec<u8>; 3] = [&chip.rx, &chip.tx, &chip.completion].map(queue);
    let mut state = told::registers(&chip.registers);
    state.push(chip.packets.free_pages() as u32);
    state.extend(pages.map(|pages| pages as u32));
    for queue in queues {
        state.push(queue.len() as u32);
        state.extend(queue.into_iter().map(u32::from));
    }
    state
}

fn watched<L: Layout>(records: &[Record]) -> String {
    let mut bench = BenchOn::<L>::default();
    let mut lines = Vec::new();
    for (number, record) in (1..).zip(records) {
        let answer = bench.step(record);
        watch::push_line(&mut lines, number, record[0], answer, &bench);
    }
    String::from_utf8(lines).unwrap()
}

/// No part is asked for, or either.
const ASKED: [Option<Part>; 3] = [None, Some(Part::Lan91c94), Some(Part::Lan91c96)];

#[test]
fn lines_agree_where_only_written_bytes_are_read() {
    for (seed, part) in (1..9).zip(ASKED.into_iter().cycle()) {
        let stream = generator::stream(part, Reading::Written, seed, 10_000);
        assert_eq!(watched::<Paged>(&stream), watched::<Strips>(&stream));
    }
}

#[test]
fn the_promise_after_each_record() {
    for (seed, part) in (1..5).zip(ASKED.into_iter().cycle()) {
        let mut pair = Pair::default();
        let stream = generator::stream(part, Reading::WrittenBySends, seed, 10_000);
        for (number, record) in (1..).zip(stream) {
            let unwritten = pair.paged.unwritten(&record);
            assert!(record[0] != 7 || unwritten.is_none());
            let (paged, strips) = pair.step(&record);
            assert!(paged == strips || unwritten.is_some());
            assert_eq!(paged.is_ok(), strips.is_ok());
            assert_eq!(pair.paged.output, pair.strips.output);
            pair.agree_in_state();
            if number % 25 == 0 {
                pair.agree_on_written_bytes(); // all of them, so not each time
            }
        }
    }
}

/// "only a data read of another byte may return another value", and many do.
#[test]
fn data_reads_of_other_bytes_differ() {
    let mut pair = Pair::default();
    let mut differ = 0;
    for record in generator::records_reading(Reading::WrittenBySends, 1, 30_000) {
        let (paged, strips) = pair.step(&record);
        differ += usize::from(paged != strips);
    }
    assert!(differ > 100, "{differ}");
}

/// Without the promise's "each send reads only bytes written" the two differ in
/// answers to sends, in bytes put out, and from there in anything.
#[test]
fn free_streams_differ() {
    let mut pair = Pair::default();
    let mut differ = BTreeSet::new();
    for record in generator::records(1, 50_000) {
        let (paged, strips) = pair.step(&record);
        if paged != strips {
            differ.insert(record[0]);
        }
    }
    assert!(differ.contains(&7), "{differ:?}");
    assert_ne!(pair.paged.output, pair.strips.output);
}

#[test]
fn written_streams_are_exact_and_repeat() {
    let written = |seed, count| generator::records_reading(Reading::Written, seed, count);
    let stream = written(7, 3_001);
    assert_eq!(stream.len(), 3_001);
    assert_eq!(stream, written(7, 3_001));
    assert_eq!(stream[..1_000], written(7, 1_000)[..]);
    assert_ne!(stream, written(8, 3_001));
    assert_ne!(stream, generator::records(7, 3_001));
}

#[test]
fn written_streams_meet_every_answer() {
    let mut bench = StripBench::default();
    let mut answers = BTreeSet::new();
    let mut arrivals = BTreeSet::new();
    for record in generator::records_reading(Reading::Written, 1, 50_000) {
        let (answer, value) = numbers(bench.step(&record));
        answers.insert(answer);
        if record[0] == 6 && answer == 0 {
            arrivals.insert(value);
        }
    }
    assert_eq!(answers, (0..=14).chain(17..=19).collect());
    assert_eq!(arrivals, (0..=5).collect());
}

/// "of pages only how many are free and how many each packet has, 24 in sum", or
/// 18.
#[test]
fn the_numbers_of_pages_in_sum() {
    for (part, sum) in ASKED.into_iter().zip([24, 18, 24]) {
        let mut bench = StripBench::default();
        for record in generator::stream(part, Reading::Free, 2, 20_000) {
            let _ = bench.step(&record);
            let packets = &bench.chip.packets;
            let counts = PacketNumber::all(packets.part()).map(|packet| packets.page_count(packet));
            assert_eq!(packets.free_pages() + counts.sum::<usize>(), sum);
        }
    }
}

const ALLOCATE: &[u8] = &[3, 0x0, 0x20];
const RELEASE: &[u8] = &[3, 0x0, 0xa0];
const ENQUEUE: &[u8] = &[3, 0x0, 0xc0];
const PACKET_1: &[u8] = &[3, 0x2, 1];
const LOAD_AT_2: &[u8] = &[4, 0x6, 0x02, 0x40];
const LOOK_AT_2: &[u8] = &[4, 0x6, 0x02, 0x60];
const COUNT_12: &[u8] = &[4, 0x8, 12, 0];
const READ: &[u8] = &[2, 0x8];

/// The values of records that both chips do, from the one and the other.
fn values(records: &[&[u8]]) -> Vec<(u16, u16)> {
    let (mut paged, mut strips) = (Bench::default(), StripBench::default());
    let both = |bytes: &&[u8]| {
        let record = record(bytes);
        (paged.step(&record).unwrap(), strips.step(&record).unwrap())
    };
    records.iter().map(both).collect()
}

/// "Strips start at zero and keep their bytes over release and reset": the
/// number is granted again, and its bytes are there.
#[test]
fn strips_keep_their_bytes() {
    let write: &[&[u8]] = &[&[3, 0xe, 2], ALLOCATE, LOAD_AT_2, COUNT_12];
    let again: &[&[u8]] = &[ALLOCATE, LOOK_AT_2, READ, READ];
    let reset: &[&[u8]] = &[&[3, 0xe, 0], &[4, 0x4, 0x00, 0x80], &[3, 0xe, 2]];
    for freed in [&[RELEASE][..], &[&[3, 0x0, 0x40]], reset] {
        let values = values(&[write, freed, again].concat());
        assert_eq!(values[values.len() - 2..], [(12, 12), (0, 0)]);
    }
}

/// Packet 1 is loaded and released, and so is packet 0, which was never written.
/// Then packet 0 has pages 0 and 1, and packet 1 has page 2.
const CARRIED: [&[u8]; 13] = [
    &[4, 0x0, 0x01, 0x00],
    &[3, 0xe, 2],
    ALLOCATE, // packet 0, page 0
    ALLOCATE, // packet 1, page 1
    PACKET_1,
    LOAD_AT_2,
    COUNT_12,
    &[4, 0x8, 0xff, 0xff],
    RELEASE,
    &[3, 0x2, 0],
    RELEASE,
    &[3, 0x0, 0x21],
    ALLOCATE,
];

/// "A page carries old bytes and a strip carries others": page 1 is packet 0's
/// now, strip 1 is packet 1's as before.
#[test]
fn a_page_carries_old_bytes_and_a_strip_carries_others() {
    let looks: [&[u8]; 5] = [&[4, 0x6, 0x02, 0x61], READ, PACKET_1, LOOK_AT_2, READ];
    let values = values(&[&CARRIED[..], &looks].concat());
    assert_eq!(values[14], (12, 0)); // address 258 of packet 0
    assert_eq!(values[17], (0, 12)); // address 2 of packet 1
}

/// The watch's lines of both chips, from the record behind `CARRIED` on; the
/// last record is a send, of which these bytes were not written.
fn counterexample(records: &[&[u8]], expected: std::ops::Range<u16>) -> [String; 2] {
    let records: Vec<Record> = CARRIED.iter().chain(records).map(|it| record(it)).collect();
    let (send, before) = records.split_last().unwrap();
    let mut bench = BenchOn::<Marked<Paged>>::default();
    for record in before {
        assert_eq!(bench.unwritten(record), None);
        assert!(bench.step(record).is_ok());
    }
    let unwritten = bench.unwritten(send).unwrap().addresses;
    assert!(unwritten.iter().map(|address| address.0).eq(expected));
    [watched::<Paged>(&records), watched::<Strips>(&records)].map(|lines| {
        let lines = lines.lines().skip(CARRIED.len());
        lines.collect::<Vec<_>>().join("\n")
    })
}

/// The paged chip finds a count of 0 on page 2, the strip chip 12 in strip 1.
/// (The FCS here and below are those of Python's zlib.)
#[test]
fn a_send_with_an_unwritten_count_gets_another_answer() {
    let [paged, strips] = counterexample(&[PACKET_1, ENQUEUE, &[7]], 2..4);
    assert_eq!(paged, "14 0 0000 0\n15 0 0000 0\n16 18 0000 0");
    assert_eq!(
        strips,
        "14 0 0000 0\n15 0 0000 0\n16 0 000a 0 ffff00000000e3cd629f"
    );
}

/// Count and control byte are written, and the data is not.
#[test]
fn a_send_of_unwritten_data_puts_out_other_bytes() {
    let records: [&[u8]; 7] = [
        PACKET_1,
        LOAD_AT_2,
        COUNT_12,
        &[4, 0x6, 0x0a, 0x40],
        &[4, 0x8, 0x00, 0x00],
        ENQUEUE,
        &[7],
    ];
    let [paged, strips] = counterexample(&records, 4..10);
    let same = "14 0 0000 0\n15 0 0000 0\n16 0 0000 0\n17 0 0000 0\n18 0 0000 0\n19 0 0000 0\n";
    assert_eq!(paged, format!("{same}20 0 000a 0 000000000000a3a1c2b1"));
    assert_eq!(strips, format!("{same}20 0 000a 0 ffff00000000e3cd629f"));
}
