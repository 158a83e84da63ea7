//! What the generated streams have to be, and to meet.

use std::collections::{BTreeMap, BTreeSet};

use super::record;
use crate::bench::{numbers, Bench, Record};
use crate::chip::Chip;
use crate::generator::{self, Reading};
use crate::memory::{Layout, PacketNumber};
use crate::part::Part;

/// A stream on a part that is asked for.
fn on_part(part: Part, seed: u64, count: usize) -> Vec<Record> {
    generator::stream(Some(part), Reading::Free, seed, count)
}

#[test]
fn streams_are_exact_and_repeat() {
    let stream = generator::records(7, 3_001);
    assert_eq!(stream.len(), 3_001);
    assert_eq!(stream, generator::records(7, 3_001));
    assert_eq!(stream[..1_000], generator::records(7, 1_000)[..]);
    assert_ne!(stream, generator::records(8, 3_001));
}

/// The first record asks for the part, "byte 1 being 94h or 96h", and the part
/// decides what follows.
#[test]
fn streams_on_a_part() {
    for (part, byte) in [(Part::Lan91c94, 0x94), (Part::Lan91c96, 0x96)] {
        let stream = on_part(part, 7, 3_001);
        assert_eq!(stream.len(), 3_001);
        assert_eq!(stream, on_part(part, 7, 3_001));
        assert_eq!(stream[0][..2], [9, byte]);
        assert_eq!(on_part(part, 7, 1), [stream[0]]);
        assert_eq!(on_part(part, 7, 0), Vec::<Record>::new());
        assert_ne!(stream, generator::records(7, 3_001));
    }
}

/// A stream that never meets a rule says nothing about it.
#[test]
fn streams_meet_every_answer() {
    let streams = [
        generator::records(1, 50_000),
        on_part(Part::Lan91c94, 3, 50_000),
    ];
    for stream in streams {
        let mut bench = Bench::default();
        let mut answers = BTreeSet::new();
        let mut arrivals = BTreeSet::new();
        for record in stream {
            let (answer, value) = numbers(bench.step(&record));
            answers.insert(answer);
            if record[0] == 6 && answer == 0 {
                arrivals.insert(value);
            }
        }
        assert_eq!(answers, (0..=14).chain(17..=19).collect());
        assert_eq!(arrivals, (0..=5).collect());
    }
}

/// Every record of kind 9 behind the first is refused: with either part's byte, and
/// with many others.
#[test]
fn streams_ask_for_parts_too_late() {
    let streams = [
        generator::records(1, 50_000),
        on_part(Part::Lan91c94, 3, 50_000),
    ];
    for stream in streams {
        let mut bench = Bench::default();
        let _ = bench.step(&stream[0]);
        let part = bench.chip.part();
        let mut asked = BTreeSet::new();
        for record in &stream[1..] {
            let answer = numbers(bench.step(record));
            if record[0] == 9 {
                assert_eq!(answer, (11, 0));
                asked.insert(record[1]);
            }
        }
        assert_eq!(bench.chip.part(), part);
        assert!(asked.is_superset(&[0x94, 0x96].into()) && asked.len() > 10);
    }
}

/// "pages are 0 to 23" and the rest of it, or 0 to 17: the page lists share no
/// page, and no number is the part's size or above.
fn is_well_formed(chip: &Chip, size: u8) {
    let mut owned = BTreeSet::new();
    for packet in PacketNumber::all(chip.part()) {
        let pages: Vec<u8> = chip
            .packets
            .pages(packet)
            .iter()
            .map(|page| page.get())
            .collect();
        assert!(pages.is_sorted());
        assert!(pages
            .into_iter()
            .all(|page| page < size && owned.insert(page)));
    }
    let queues = [&chip.rx, &chip.tx, &chip.completion];
    let named = queues.into_iter().flat_map(|queue| queue.entries());
    assert!(named
        .chain(chip.registers.result)
        .all(|packet| packet.get() < size));
    assert!(queues.iter().all(|queue| queue.len() <= size.into()));
    assert_eq!(chip.packets.free_pages(), usize::from(size) - owned.len());
    assert_eq!(chip.packets.bytes().len(), usize::from(size) * 256);
}

/// All numbers of a part are granted at once, and no other; completion is full;
/// these numbers are tried by A0h, C0h or a data access.
#[test]
fn streams_use_a_part_up() {
    let parts = [
        (Part::Lan91c94, 18, [17, 18, 23, 24, 63]),
        (Part::Lan91c96, 24, [17, 18, 23, 24, 63]),
    ];
    for (part, size, numbers) in parts {
        let mut bench = Bench::default();
        let (mut all, mut full, mut tried) = (0, 0, BTreeSet::new());
        for record in on_part(part, 3, 50_000) {
            let before = bench.chip.registers.clone();
            let _ = bench.step(&record);
            is_well_formed(&bench.chip, size);
            let packets = &bench.chip.packets;
            all += usize::from(PacketNumber::all(part).all(|it| packets.is_allocated(it)));
            full += usize::from(bench.chip.completion.len() == size.into());
            if let (3, 2, 0x0, 0xa0 | 0xc0) = (record[0], before.bank, record[1], record[2]) {
                tried.insert(before.packet_number);
            }
        }
        assert!(all > 20 && full > 20, "{all}, {full}");
        assert!(tried.is_superset(&numbers.into()), "{tried:?}");
    }
}

/// "We want them told apart": every count under 12, and many of the others.
#[test]
fn streams_meet_many_unusable_counts() {
    let mut bench = Bench::default();
    let mut values: BTreeMap<u8, BTreeSet<u16>> = BTreeMap::new();
    for record in generator::records(1, 100_000) {
        let (answer, value) = numbers(bench.step(&record));
        values.entry(answer).or_default().insert(value);
    }
    let [odd, short, long] = [13, 18, 19].map(|number| &values[&number]);
    assert!(odd.range(..12).eq(&[1, 3, 5, 7, 9, 11]));
    assert!(short.iter().eq(&[0, 2, 4, 6, 8, 10]));
    for unusable in [odd, long] {
        assert!(unusable.range(12..=2_048).count() > 10);
        assert!(unusable.range(2_049..).count() > 5);
    }
}

/// Each bit of the status has the line up and down, alone in the mask.
#[test]
fn streams_move_the_line() {
    let mut bench = Bench::default();
    let mut seen = BTreeSet::new();
    for record in generator::records(1, 50_000) {
        let _ = bench.step(&record);
        seen.insert((bench.chip.registers.mask, bench.chip.line_is_up()));
    }
    for mask in (0..6).map(|bit| 1 << bit) {
        assert!(seen.contains(&(mask, false)), "down under {mask:02x}");
        assert!(seen.contains(&(mask, true)), "up under {mask:02x}");
    }
}

/// "A state with a waiting request is well formed only if it is for 1 to 8
/// pages, more than are free, with the result at 80h."
#[test]
fn a_request_that_waits_is_well_formed() {
    for seed in 1..5 {
        let mut bench = Bench::default();
        for record in generator::records(seed, 20_000) {
            let _ = bench.step(&record);
            let chip = &bench.chip;
            let Some(pages) = chip.registers.waiting else {
                continue;
            };
            assert!((1..=8).contains(&pages));
            assert!(pages > chip.packets.free_pages());
            assert_eq!(chip.registers.result, None);
        }
    }
}

/// Else a program that serves a tail would still print 17.
#[test]
fn tails_would_be_answered() {
    for seed in 0..100 {
        let whole = record(&generator::tail(seed));
        let (answer, _) = numbers(Bench::default().step(&whole));
        assert_ne!(answer, 17, "{whole:02x?}");
    }
}
