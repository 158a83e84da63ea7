//! "The LAN91C94".

use super::{allocate, bank, frame_of, get, loaded, put, record, result, send, word_at};
use super::{COMMAND, DATA, ENQUEUE, LOAD, LOOK, MIR, PACKET, POINTER, RCR, RELEASE_RX, TCR};
use crate::bench::{numbers, Bench, BenchOn, Record, StripBench};
use crate::chip::{Chip, StripChip};
use crate::frame::Arrival;
use crate::memory::{Layout, PacketNumber};
use crate::part::Part;
use crate::refusal::Refusal;
use crate::registers::Width::{Byte, Word};
use crate::told::tell;
use crate::watch;

const RESERVED: (u16, u8) = (0, 0xa);
const HEADS: (u16, u8) = (2, 0x4);
const FREE_ALL: u16 = 0x40;
const RELEASE: u16 = 0xa0;

const ASK_94: &[u8] = &[9, 0x94];
const ASK_96: &[u8] = &[9, 0x96];
const READ_MIR: &[u8] = &[2, 0x8];

/// Answers and values of records from power-up on.
fn answers<L: Layout>(records: &[&[u8]]) -> Vec<(u8, u16)> {
    let mut bench = BenchOn::<L>::default();
    let answer = |bytes: &&[u8]| numbers(bench.step(&record(bytes)));
    records.iter().map(answer).collect()
}

/// Records with the number and value that each is answered, by either chip.
fn told_by_hand(turns: &[(&[u8], (u8, u16))]) {
    let (records, expected): (Vec<_>, Vec<_>) = turns.iter().copied().unzip();
    assert_eq!(answers::<crate::memory::Paged>(&records), expected);
    assert_eq!(answers::<crate::memory::Strips>(&records), expected);
}

fn lan91c94() -> Chip {
    Chip::new(Part::Lan91c94)
}

/// Packets from 0 on with so many pages each.
fn taken(pages: &[u8]) -> Chip {
    let mut chip = lan91c94();
    for &pages in pages {
        allocate(&mut chip, pages);
    }
    chip
}

fn release(chip: &mut Chip, packet: u16) {
    put(chip, PACKET, packet);
    put(chip, COMMAND, RELEASE);
}

fn pages_of(chip: &Chip, packet: u8) -> Vec<u8> {
    let packet = PacketNumber::new(chip.part(), packet).unwrap();
    let pages = chip.packets.pages(packet);
    pages.iter().map(|page| page.get()).collect()
}

/// "MIR 1212h after reset": at power-up, after a soft reset and after 40h, which
/// keep the part. By bytes too.
#[test]
fn the_lan91c94_has_18_pages() {
    told_by_hand(&[
        (ASK_94, (0, 0)),
        (READ_MIR, (0, 0x1212)),
        (&[1, 0x8], (0, 0x12)),
        (&[1, 0x9], (0, 0x12)),
        (&[3, 0xe, 2], (0, 0)),
        (&[3, 0x0, 0x27], (0, 0)),
        (&[3, 0xe, 0], (0, 0)),
        (READ_MIR, (0, 0x0a12)),
        (&[4, 0x4, 0x00, 0x80], (0, 0)), // soft reset
        (READ_MIR, (0, 0x1212)),
        (&[3, 0xe, 2], (0, 0)),
        (&[3, 0x0, 0x20], (0, 0)),
        (&[3, 0x0, 0x40], (0, 0)),
        (&[3, 0xe, 0], (0, 0)),
        (READ_MIR, (0, 0x1212)),
        (&[3, 0x8, 0], (3, 0)),
    ]);
}

/// "94h or 96h; without it, the LAN91C96". The other bytes of the record "are
/// ignored".
#[test]
fn the_lan91c96_is_asked_for_or_not() {
    told_by_hand(&[(ASK_96, (0, 0)), (READ_MIR, (0, 0x1818))]);
    told_by_hand(&[(READ_MIR, (0, 0x1818))]);
    told_by_hand(&[
        (&[9, 0x94, 0x96, 0x96, 0xff, 1, 2, 3], (0, 0)),
        (READ_MIR, (0, 0x1212)),
    ]);
    told_by_hand(&[
        (&[9, 0x96, 0x94, 0x94, 0xff, 1, 2, 3], (0, 0)),
        (READ_MIR, (0, 0x1818)),
        (&[4, 0x4, 0x00, 0x80], (0, 0)),
        (READ_MIR, (0, 0x1818)),
    ]);
}

/// "with another byte, gets 11"; the part is then the LAN91C96, and the second
/// record is "later on".
#[test]
fn another_byte_gets_11() {
    for byte in (0..=0xff).filter(|byte| ![0x94, 0x96].contains(byte)) {
        told_by_hand(&[
            (&[9, byte], (11, 0)),
            (ASK_94, (11, 0)),
            (READ_MIR, (0, 0x1818)),
        ]);
    }
}

/// "kind 9 later on .. gets 11", and the part stays what it is.
#[test]
fn later_on_gets_11() {
    for (asked, mir) in [(ASK_94, 0x1212), (ASK_96, 0x1818)] {
        told_by_hand(&[
            (asked, (0, 0)),
            (ASK_94, (11, 0)),
            (ASK_96, (11, 0)),
            (&[9], (11, 0)),
            (&[9, 0x95, 0x94], (11, 0)),
            (READ_MIR, (0, mir)),
            (&[4, 0x4, 0x00, 0x80], (0, 0)), // a reset starts no new run
            (ASK_94, (11, 0)),
            (ASK_96, (11, 0)),
            (READ_MIR, (0, mir)),
        ]);
    }
}

/// Whatever record 1 was answered, only it could have asked.
#[test]
fn after_any_other_first_record_the_part_is_the_lan91c96() {
    let firsts: [(&[u8], (u8, u16)); 12] = [
        (&[0, 0x94], (17, 0)),
        (&[10, 0x94], (17, 0)),
        (&[0x94, 0x94], (17, 0)),
        (&[255], (17, 0)),
        (&[2, 0xe], (0, 0x3300)),
        (&[2, 0x9], (1, 0)),
        (&[3, 0xf], (3, 0)),
        (&[5, 1, 0x94], (0, 0)),
        (&[5, 7], (11, 0)),
        (&[6], (11, 0)),
        (&[7], (12, 0)),
        (&[8, 2], (11, 0)),
    ];
    for first in firsts {
        told_by_hand(&[
            first,
            (ASK_94, (11, 0)),
            (READ_MIR, (0, 0x1818)),
            (ASK_96, (11, 0)),
            (READ_MIR, (0, 0x1818)),
        ]);
    }
}

/// "packets 0 to 17": with as many taken there is no 19th, and a request waits;
/// a release grants it the number and the page that are free then.
#[test]
fn eighteen_packets_and_no_more() {
    let mut chip = lan91c94();
    for packet in 0..18 {
        allocate(&mut chip, 1);
        assert_eq!(result(&mut chip), packet);
        assert_eq!(pages_of(&chip, packet as u8), [packet as u8]);
    }
    assert_eq!(get(&mut chip, MIR), 0x0012);
    for _ in 0..2 {
        allocate(&mut chip, 1);
        assert_eq!(result(&mut chip), 0x80);
        assert_eq!(chip.registers.waiting, Some(1));
    }
    for packet in [5, 17] {
        release(&mut chip, packet);
        assert_eq!(result(&mut chip), packet);
        assert_eq!(pages_of(&chip, packet as u8), [packet as u8]);
        assert_eq!(get(&mut chip, MIR), 0x0012);
        assert_eq!(chip.registers.waiting, None);
        allocate(&mut chip, 1);
    }
    put(&mut chip, COMMAND, FREE_ALL);
    assert_eq!(result(&mut chip), 0x80);
    assert_eq!(get(&mut chip, MIR), 0x1212);
}

/// Requests are for "1 to 8 pages" as before: two packets of eight leave two.
#[test]
fn eight_pages_at_a_time() {
    let mut chip = taken(&[8, 8]);
    assert_eq!(get(&mut chip, MIR), 0x0212);
    for pages in 3..=8 {
        allocate(&mut chip, pages);
        assert_eq!(result(&mut chip), 0x80);
    }
    release(&mut chip, 0);
    assert_eq!(result(&mut chip), 0);
    assert_eq!(pages_of(&chip, 0), [0, 1, 2, 3, 4, 5, 6, 7]);
    allocate(&mut chip, 3);
    assert_eq!(result(&mut chip), 0x80);
    allocate(&mut chip, 2);
    assert_eq!(result(&mut chip), 2);
    assert_eq!(pages_of(&chip, 2), [16, 17]);
    assert_eq!(get(&mut chip, MIR), 0x0012);
}

/// Every number from 18 on names no packet, though the register holds "0 to 63".
#[test]
fn numbers_from_18_on_get_5() {
    let mut chip = taken(&[1; 18]);
    for number in 0..64 {
        put(&mut chip, PACKET, number);
        assert_eq!(get(&mut chip, PACKET) & 0xff, number);
        put(&mut chip, POINTER, LOOK);
        let read = chip.read(Word, 0x8);
        put(&mut chip, POINTER, LOAD);
        let written = chip.write(Byte, 0x9, 0);
        if number < 18 {
            assert_eq!((read, written), (Ok(0), Ok(())));
            continue;
        }
        assert_eq!(read, Err(Refusal::NotAllocated));
        assert_eq!(written, Err(Refusal::NotAllocated));
        for command in [RELEASE, ENQUEUE] {
            assert_eq!(
                chip.write(Byte, 0x0, command),
                Err(Refusal::NotAllocated),
                "{number}"
            );
        }
    }
    put(&mut chip, PACKET, 64 + 17); // "mod 64"
    assert_eq!(get(&mut chip, PACKET) & 0xff, 17);
    put(&mut chip, COMMAND, ENQUEUE);
    assert_eq!(chip.tx.port(), 17);
}

/// On the LAN91C96 18 to 23 are packets as before.
#[test]
fn numbers_from_24_on_get_5_on_the_lan91c96() {
    let mut chip = Chip::new(Part::Lan91c96);
    for packet in 0..24 {
        allocate(&mut chip, 1);
        assert_eq!(result(&mut chip), packet);
    }
    assert_eq!(get(&mut chip, MIR), 0x0018);
    for number in 18..64 {
        put(&mut chip, PACKET, number);
        let expected = if number < 24 {
            Ok(())
        } else {
            Err(Refusal::NotAllocated)
        };
        assert_eq!(chip.write(Byte, 0x0, ENQUEUE), expected, "{number}");
    }
}

/// A packet 0 with a usable count in TX, as on the LAN91C96.
fn loaded_94() -> Chip {
    let mut chip = taken(&[8]);
    put(&mut chip, TCR, 1);
    put(&mut chip, POINTER, LOAD | 2);
    put(&mut chip, DATA, 12);
    put(&mut chip, COMMAND, ENQUEUE);
    chip
}

/// "the completion FIFO holds 18": good sends or failed ones, and none is lost.
#[test]
fn nineteen_sends_fill_completion() {
    for (outcome, collisions) in [(0, 0), (1, 16), (5, 0)] {
        let mut chip = loaded_94();
        for _ in 0..18 {
            assert_eq!(send(&mut chip, outcome, collisions, 0), Ok(10));
            put(&mut chip, TCR, 1);
            put(&mut chip, COMMAND, ENQUEUE);
        }
        for _ in 0..2 {
            let refused = send(&mut chip, outcome, collisions, 0);
            assert_eq!(refused, Err(Refusal::CompletionFull));
        }
        assert_eq!(chip.completion.len(), 18);
        bank(&mut chip, 2);
        chip.write(Byte, 0xc, 2).unwrap(); // one acknowledged
        assert_eq!(send(&mut chip, outcome, collisions, 0), Ok(10));
        put(&mut chip, TCR, 1);
        put(&mut chip, COMMAND, ENQUEUE);
        let refused = send(&mut chip, outcome, collisions, 0);
        assert_eq!(refused, Err(Refusal::CompletionFull));
    }
}

/// The LAN91C96 still holds 24.
#[test]
fn nineteen_sends_do_not_fill_that_of_the_lan91c96() {
    let mut chip = loaded(12);
    for _ in 0..19 {
        assert_eq!(send(&mut chip, 0, 0, 0), Ok(10));
        put(&mut chip, COMMAND, ENQUEUE);
    }
}

fn arrive(chip: &mut Chip, length: usize) -> Arrival {
    chip.arrive(&frame_of(length), false).unwrap()
}

/// "5 free pages less those needed are below the reserved number", by 18 pages.
#[test]
fn frames_find_room_in_18_pages() {
    let mut chip = lan91c94();
    put(&mut chip, RCR, 0x0102);
    for packet in 0..18 {
        assert_eq!(arrive(&mut chip, 64), Arrival::Stored);
        assert_eq!(get(&mut chip, MIR), (17 - packet) << 8 | 0x12);
    }
    assert_eq!(arrive(&mut chip, 64), Arrival::NoRoom);
    assert_eq!(get(&mut chip, RCR), 0x0103);
    assert!(chip.registers.rx_overrun);
    for packet in 0..18 {
        assert_eq!(get(&mut chip, HEADS), packet << 8 | 0x80);
        put(&mut chip, COMMAND, RELEASE_RX);
    }
    assert_eq!(get(&mut chip, HEADS), 0x8080);
    // seven pages each
    for expected in [Arrival::Stored, Arrival::Stored, Arrival::NoRoom] {
        assert_eq!(arrive(&mut chip, 1_532), expected);
    }
    assert_eq!(get(&mut chip, MIR), 0x0412);
}

/// Either side of the reserved number, with all 18 pages free.
#[test]
fn pages_reserved_of_18() {
    let reserved = [
        (17, 64, Arrival::Stored),
        (18, 64, Arrival::NoRoom),
        (11, 1_532, Arrival::Stored),
        (12, 1_532, Arrival::NoRoom),
        (23, 64, Arrival::NoRoom),
        (255, 64, Arrival::NoRoom),
    ];
    for (pages, length, expected) in reserved {
        let mut chip = lan91c94();
        put(&mut chip, RCR, 0x0102);
        put(&mut chip, RESERVED, pages);
        assert_eq!(get(&mut chip, RESERVED), 0x3300 | pages);
        assert_eq!(arrive(&mut chip, length), expected, "{pages} reserved");
    }
}

/// "4,608 bytes", and as strips 36,864; the other part has what it had. The last
/// byte of the last page and that of the last strip are a packet's.
#[test]
fn the_memory_of_each_part() {
    let sizes = [
        (Part::Lan91c94, 4_608, 36_864),
        (Part::Lan91c96, 6_144, 49_152),
    ];
    for (part, paged, strips) in sizes {
        assert_eq!(Chip::new(part).packets.bytes(), vec![0; paged]);
        assert_eq!(StripChip::new(part).packets.bytes(), vec![0; strips]);
    }
    let mut chip = taken(&[8, 8, 1, 1]);
    put(&mut chip, PACKET, 3);
    put(&mut chip, POINTER, LOAD | 254);
    put(&mut chip, DATA, 0xbeef);
    assert_eq!(chip.packets.bytes()[4_606..], [0xef, 0xbe]);
    assert_eq!(word_at(&mut chip, LOOK | 254), 0xbeef);
}

/// Records that use up the numbers of the LAN91C94, with what each is answered.
const USED_UP: [(&[u8], (u8, u16)); 12] = [
    (&[1, 0x3], (0, 17)),
    (&[3, 0x0, 0x20], (0, 0)),
    (&[1, 0x3], (0, 0x80)),
    (&[3, 0x2, 17], (0, 0)),
    (&[4, 0x6, 0xfe, 0x40], (0, 0)),
    (&[4, 0x8, 0x34, 0x12], (0, 0)),
    (&[4, 0x8, 0x78, 0x56], (10, 0)),
    (&[3, 0x0, 0xa0], (0, 0)),
    (&[1, 0x3], (0, 17)),
    (&[4, 0x6, 0xfe, 0x60], (0, 0)),
    (&[2, 0x8], (0, 0x1234)), // bytes of freed pages and of strips stay
    (&[3, 0x2, 18], (0, 0)),
];

/// The chip of strips has 18 of them, and 18 pages in sum.
#[test]
fn both_chips_of_the_part_use_up_18_numbers() {
    let granted = [(&[3, 0x0, 0x20][..], (0, 0)); 18];
    let before: [(&[u8], _); 2] = [(ASK_94, (0, 0)), (&[3, 0xe, 2], (0, 0))];
    let after: [(&[u8], _); 2] = [(&[2, 0x8], (5, 0)), (&[3, 0x0, 0xc0], (5, 0))];
    told_by_hand(&[&before[..], &granted, &USED_UP, &after].concat());
    let mut bench = StripBench::default();
    let _ = bench.step(&record(ASK_94));
    for pages in (1..=8).chain(1..=8) {
        put_strips(&mut bench, &[3, 0x0, 0x1f + pages]);
        let packets = &bench.chip.packets;
        let counts = PacketNumber::all(packets.part()).map(|packet| packets.page_count(packet));
        assert_eq!(packets.free_pages() + counts.sum::<usize>(), 18);
    }
}

/// A record in bank 2 that is done.
fn put_strips(bench: &mut StripBench, bytes: &[u8]) {
    for bytes in [&[3, 0xe, 2], bytes] {
        assert_eq!(bench.step(&record(bytes)), Ok(0));
    }
}

/// Wire bytes gather as before: 2,048 at most, and a kind 9 that is refused leaves
/// them.
#[test]
fn gathered_bytes_stay() {
    let mut bench = Bench::default();
    assert_eq!(bench.step(&record(ASK_94)), Ok(0));
    put(&mut bench.chip, RCR, 0x0102);
    for piece in frame_of(64).chunks(6) {
        let wire = [&[5, piece.len() as u8], piece].concat();
        assert_eq!(bench.step(&record(&wire)), Ok(0));
        assert_eq!(numbers(bench.step(&record(ASK_96))), (11, 0));
        assert_eq!(numbers(bench.step(&record(ASK_94))), (11, 0));
    }
    assert_eq!(bench.gathered.as_slice(), frame_of(64));
    assert_eq!(bench.step(&record(&[6])), Ok(0), "with its right FCS");
    assert_eq!(get(&mut bench.chip, MIR), 0x1112);
    for _ in 0..341 {
        assert_eq!(bench.step(&record(&[5, 6])), Ok(0));
    }
    assert_eq!(numbers(bench.step(&record(&[5, 3]))), (11, 0));
}

/// A refused kind 9 changes nothing at all: not the state, the memory or the
/// bytes put out.
#[test]
fn a_refusal_changes_nothing() {
    let before: [&[u8]; 8] = [
        ASK_94,
        &[4, 0x0, 1, 0],
        &[3, 0xe, 2],
        &[3, 0x0, 0x27],
        &[4, 0x6, 2, 0x40],
        &[4, 0x8, 12, 0],
        &[3, 0x0, 0xc0],
        &[7],
    ];
    let left = |more: &[&[u8]]| {
        let records: Vec<Record> = before.iter().chain(more).map(|it| record(it)).collect();
        let told = tell(&records);
        let lines = told.lines().skip(records.len());
        lines.map(String::from).collect::<Vec<_>>()
    };
    let refused: [&[u8]; 4] = [ASK_94, ASK_96, &[9], &[9, 0x18, 0x94]];
    assert_eq!(left(&refused), left(&[]));
}

/// The line is that after the record: down after the first, for the mask is 0.
#[test]
fn kind_9_watched() {
    let records = [
        ASK_94,
        &[3, 0xe, 2],
        &[3, 0xd, 0x04], // TX EMPTY
        ASK_94,
        &[3, 0xd, 0x08], // allocation
        ASK_96,
        &[3, 0x0, 0x27],
        &[9, 0x12],
    ];
    let mut bench = Bench::default();
    let mut lines = Vec::new();
    for (number, record) in (1..).zip(records.map(record)) {
        let answer = bench.step(&record);
        watch::push_line(&mut lines, number, record[0], answer, &bench);
    }
    let expected = "1 0 0000 0\n2 0 0000 0\n3 0 0000 1\n4 11 0000 1\n5 0 0000 0\n6 11 0000 0\n\
                    7 0 0000 1\n8 11 0000 1\n";
    assert_eq!(String::from_utf8(lines).unwrap(), expected);
}

/// What is told goes by the part: as many page lists, and as much memory.
#[test]
fn the_part_is_told() {
    let parts: [(&[&[u8]], usize, usize); 4] = [
        (&[ASK_94], 18, 4_608),
        (&[ASK_96], 24, 6_144),
        (&[&[9, 0x49]], 24, 6_144),
        (&[], 24, 6_144),
    ];
    for (records, packets, bytes) in parts {
        let records: Vec<_> = records.iter().map(|bytes| record(bytes)).collect();
        let told = tell(&records);
        let lines: Vec<_> = told.lines().skip(records.len()).collect();
        assert_eq!(lines[1], format!("pool{}", " 0".repeat(packets + 3)));
        assert_eq!(lines[3], format!("memory {}", "00".repeat(bytes)));
    }
}
