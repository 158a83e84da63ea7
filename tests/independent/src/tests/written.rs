//! Request W3's "written": what is marked, and what a record reads.

use super::record;
use crate::bench::{numbers, BenchOn};
use crate::memory::{Marked, PacketAddress, PacketNumber, Paged};
use crate::part::Part;
use crate::wire::{self, Check};

type MarkedBench = BenchOn<Marked<Paged>>;

const ALLOCATE_8: &[u8] = &[3, 0x0, 0x27];
const RELEASE: &[u8] = &[3, 0x0, 0xa0];
const RELEASE_RX: &[u8] = &[3, 0x0, 0x80];
const ENQUEUE: &[u8] = &[3, 0x0, 0xc0];
const READ_BYTE: &[u8] = &[1, 0x8];
const READ_WORD: &[u8] = &[2, 0x8];
const SEND: &[u8] = &[7];

/// Records that are done, each from its leading bytes.
fn play(bench: &mut MarkedBench, records: &[&[u8]]) {
    for bytes in records {
        let (answer, _) = numbers(bench.step(&record(bytes)));
        assert_eq!(answer, 0, "{bytes:02x?}");
    }
}

fn packet(number: u8) -> PacketNumber {
    PacketNumber::new(Part::Lan91c96, number).unwrap()
}

/// Where a packet was written since its grant.
fn written(bench: &MarkedBench, number: u8) -> Vec<u16> {
    let addresses = bench.chip.packets.written(packet(number));
    addresses.map(|PacketAddress(address)| address).collect()
}

fn addresses(bytes: Option<crate::reads::Bytes>) -> Vec<u16> {
    let found = bytes.map_or(Vec::new(), |bytes| bytes.addresses);
    let mut found: Vec<u16> = found.into_iter().map(|address| address.0).collect();
    found.sort();
    found
}

/// What a record reads, and what of it was not written.
fn reads(bench: &MarkedBench, bytes: &[u8]) -> Vec<u16> {
    addresses(bench.reads(&record(bytes)))
}

fn unwritten(bench: &MarkedBench, bytes: &[u8]) -> Vec<u16> {
    addresses(bench.unwritten(&record(bytes)))
}

/// Bank 2, TXENA and RXEN set, and packet 0 of so many pages.
fn with_packet(pages: u8) -> MarkedBench {
    let mut bench = MarkedBench::default();
    play(
        &mut bench,
        &[
            &[4, 0x0, 0x01, 0x00],
            &[4, 0x4, 0x00, 0x01],
            &[3, 0xe, 2],
            &[3, 0x0, 0x1f + pages],
        ],
    );
    bench
}

/// The pointer, with AUTO INCR: to write, and to read.
fn load_at(bench: &mut MarkedBench, address: u16) {
    let [low, high] = (address | 0x4000).to_le_bytes();
    play(bench, &[&[4, 0x6, low, high]]);
}

fn look_at(bench: &mut MarkedBench, address: u16) {
    let [low, high] = (address | 0x6000).to_le_bytes();
    play(bench, &[&[4, 0x6, low, high]]);
}

/// Writes words from an address on.
fn load(bench: &mut MarkedBench, address: u16, words: &[u16]) {
    load_at(bench, address);
    for word in words {
        let [low, high] = word.to_le_bytes();
        play(bench, &[&[4, 0x8, low, high]]);
    }
}

/// A broadcast frame of so many bytes.
fn arrive(bench: &mut MarkedBench, length: usize) {
    let mut bytes = vec![0xff; length];
    wire::end(&mut bytes, Check::Right);
    for piece in bytes.chunks(6) {
        play(bench, &[&[&[5, piece.len() as u8], piece].concat()]);
    }
    play(bench, &[&[6]]);
}

#[test]
fn a_word_half_written() {
    let mut bench = with_packet(1);
    load_at(&mut bench, 5);
    play(&mut bench, &[&[3, 0x8, 0x5a]]);
    look_at(&mut bench, 4);
    assert_eq!(reads(&bench, READ_WORD), [4, 5]);
    assert_eq!(unwritten(&bench, READ_WORD), [4]);
    assert_eq!(unwritten(&bench, READ_BYTE), [4]);
    look_at(&mut bench, 5);
    assert_eq!(unwritten(&bench, READ_WORD), [6]);
    assert_eq!(unwritten(&bench, READ_BYTE), []);
    assert_eq!(written(&bench, 0), [5]);
}

/// At every offset of the data register and nowhere else.
#[test]
fn only_a_data_read_that_is_done_reads() {
    let mut bench = with_packet(1);
    look_at(&mut bench, 254);
    for offset in 0x0..=0xf {
        let data = (0x8..=0xb).contains(&offset);
        assert_eq!(reads(&bench, &[1, offset]).len(), usize::from(data));
        let word = data && offset % 2 == 0;
        assert_eq!(reads(&bench, &[2, offset]).len(), 2 * usize::from(word));
    }
    look_at(&mut bench, 255);
    assert_eq!(reads(&bench, READ_WORD), []); // 10
    assert_eq!(reads(&bench, READ_BYTE), [255]);
    load_at(&mut bench, 254);
    assert_eq!(reads(&bench, READ_WORD), []); // 8
    look_at(&mut bench, 254);
    play(&mut bench, &[RELEASE]);
    assert_eq!(reads(&bench, READ_WORD), []); // 5
}

#[test]
fn a_refused_write_marks_nothing() {
    let mut bench = with_packet(1);
    load_at(&mut bench, 255);
    assert!(bench.step(&record(&[4, 0x8, 1, 2])).is_err()); // 10
    look_at(&mut bench, 4);
    assert!(bench.step(&record(&[4, 0x8, 1, 2])).is_err()); // 8
    assert_eq!(written(&bench, 0), []);
}

/// The same number and the same page, and the bytes are still there.
#[test]
fn a_grant_starts_anew() {
    let mut bench = with_packet(1);
    load(&mut bench, 8, &[0x1234]);
    assert_eq!(written(&bench, 0), [8, 9]);
    play(&mut bench, &[RELEASE, &[3, 0x0, 0x20]]);
    assert_eq!(written(&bench, 0), []);
    look_at(&mut bench, 8);
    assert_eq!(unwritten(&bench, READ_WORD), [8, 9]);
    assert_eq!(bench.step(&record(READ_WORD)), Ok(0x1234));
    assert_eq!(bench.chip.packets.grants(packet(0)), 2);
}

/// 40h and a soft reset end every packet; their numbers come by grants again.
#[test]
fn a_grant_after_everything_was_freed_starts_anew() {
    let reset: &[&[u8]] = &[&[3, 0xe, 0], &[4, 0x4, 0x00, 0x80], &[3, 0xe, 2]];
    for freed in [&[&[3, 0x0, 0x40][..]][..], reset] {
        let mut bench = with_packet(1);
        load(&mut bench, 8, &[0x1234]);
        play(&mut bench, freed);
        play(&mut bench, &[&[3, 0x0, 0x20]]);
        assert_eq!(written(&bench, 0), []);
    }
}

/// Commands that grant nothing leave what is written.
#[test]
fn other_commands_leave_the_marks() {
    let mut bench = with_packet(1);
    load(&mut bench, 8, &[0x1234]);
    play(&mut bench, &[&[3, 0x0, 0x00], ENQUEUE, &[3, 0x0, 0xe0]]);
    play(&mut bench, &[&[3, 0x0, 0x20]]); // packet 1
    assert_eq!(written(&bench, 0), [8, 9]);
    assert_eq!(written(&bench, 1), []);
}

/// The memory is full and a request waits for eight pages; in the step that
/// releases packet 0 it takes the same number again.
fn granted_anew_by(bench: &mut MarkedBench, release: &[u8]) {
    play(bench, &[ALLOCATE_8, ALLOCATE_8, ALLOCATE_8]);
    assert_eq!(bench.chip.registers.waiting, Some(8));
    assert_ne!(written(bench, 0), []);
    let before = bench.chip.packets.grants(packet(0));
    play(bench, &[release]);
    assert_eq!(bench.chip.registers.result, Some(packet(0)));
    assert_eq!(bench.chip.packets.grants(packet(0)), before + 1);
    assert_eq!(written(bench, 0), []);
}

#[test]
fn released_and_granted_in_one_step() {
    let mut bench = with_packet(8);
    load(&mut bench, 8, &[0x1234]);
    granted_anew_by(&mut bench, RELEASE);
}

#[test]
fn removed_and_granted_in_one_step() {
    let mut bench = with_packet(8);
    play(&mut bench, &[RELEASE]);
    arrive(&mut bench, 1_532);
    assert_eq!(written(&bench, 0), (0..1_538).collect::<Vec<_>>());
    granted_anew_by(&mut bench, RELEASE_RX);
}

/// The status word is written first, so it is not written since.
#[test]
fn sent_and_granted_in_one_step() {
    let mut bench = with_packet(8);
    load(&mut bench, 2, &[12, 0, 0, 0, 0]);
    play(&mut bench, &[ENQUEUE, &[3, 0xe, 1], &[4, 0xc, 0x00, 0x08]]);
    play(&mut bench, &[&[3, 0xe, 2]]);
    granted_anew_by(&mut bench, SEND);
}

/// "The count is n + 6 (even) or n + 5 (odd)": up to it, "Later bytes of the
/// last page stay".
#[test]
fn a_stored_frame_is_written_up_to_its_count() {
    for (length, count) in [(64, 70), (65, 70), (251, 256), (252, 258)] {
        let mut bench = with_packet(1);
        arrive(&mut bench, length);
        assert_eq!(written(&bench, 0), []);
        assert_eq!(written(&bench, 1), (0..count).collect::<Vec<_>>());
    }
}

/// "EPHSR is written to addresses 0 and 1", in the packet that is kept.
#[test]
fn a_send_writes_its_status_word() {
    let mut bench = with_packet(1);
    load(&mut bench, 2, &[12, 0, 0, 0, 0]);
    play(&mut bench, &[ENQUEUE]);
    let before: Vec<u16> = (2..12).collect();
    assert_eq!(written(&bench, 0), before);
    play(&mut bench, &[SEND]);
    assert_eq!(written(&bench, 0), (0..12).collect::<Vec<_>>());
    look_at(&mut bench, 0);
    assert_eq!(unwritten(&bench, READ_WORD), []);
}

/// A refused send writes nothing.
#[test]
fn a_refused_send_writes_no_status_word() {
    let mut bench = with_packet(1);
    load(&mut bench, 2, &[13]);
    play(&mut bench, &[ENQUEUE]);
    assert!(bench.step(&record(SEND)).is_err());
    assert_eq!(written(&bench, 0), [2, 3]);
}

/// Packet 0 in TX with a count of 16 and a control byte.
fn ready(control: u8) -> MarkedBench {
    let mut bench = with_packet(1);
    load(&mut bench, 2, &[16]);
    load(&mut bench, 14, &[u16::from(control) << 8]);
    play(&mut bench, &[ENQUEUE]);
    bench
}

/// "of an even-length frame the filler byte at c − 2 is not read".
#[test]
fn a_send_reads_count_control_and_data() {
    let even: Vec<u16> = (2..14).chain([15]).collect();
    assert_eq!(reads(&ready(0x00), SEND), even);
    assert_eq!(unwritten(&ready(0x00), SEND), (4..14).collect::<Vec<_>>());
    let odd: Vec<u16> = (2..16).collect();
    assert_eq!(reads(&ready(0x20), SEND), odd);
    assert_eq!(reads(&ready(0x20), &[7, 1, 16]), odd); // failed
}

/// The padding is no byte of the packet.
#[test]
fn a_padded_send_reads_its_data_alone() {
    let mut bench = ready(0x00);
    play(&mut bench, &[&[3, 0xe, 0], &[3, 0x0, 0x81]]);
    assert_eq!(reads(&bench, SEND).len(), 13);
}

/// 11 and 12 come before anything is read.
#[test]
fn a_send_that_is_refused_before_its_count_reads_nothing() {
    let mut bench = ready(0x00);
    assert_eq!(reads(&bench, &[7, 6]), []);
    assert_eq!(reads(&bench, &[7, 0, 16]), []);
    play(&mut bench, &[&[3, 0xe, 0], &[3, 0x0, 0x00]]);
    assert_eq!(reads(&bench, SEND), []);
    assert_eq!(reads(&with_packet(1), SEND), []); // TX empty
}

/// "reads the count alone".
#[test]
fn a_send_with_a_faulty_count_reads_the_count() {
    for (count, answer) in [(15, 13), (10, 18), (258, 19)] {
        let mut bench = ready(0x00);
        load(&mut bench, 2, &[count]);
        assert_eq!(reads(&bench, SEND), [2, 3]);
        assert_eq!(numbers(bench.step(&record(SEND))), (answer, count));
    }
}

/// 24 numbers in completion: 14 for a send that keeps its packet, but "Good
/// with control bit 11: the packet is released", and reads its data.
#[test]
fn a_send_that_completion_has_no_room_for_reads_the_count() {
    let mut bench = ready(0x00);
    for _ in 0..24 {
        play(&mut bench, &[SEND, ENQUEUE]);
    }
    assert_eq!(reads(&bench, SEND), [2, 3]);
    assert_eq!(numbers(bench.step(&record(SEND))), (14, 0));
    play(&mut bench, &[&[3, 0xe, 1], &[4, 0xc, 0x00, 0x08]]);
    assert_eq!(reads(&bench, SEND).len(), 13);
    assert_eq!(reads(&bench, &[7, 1, 16]), [2, 3]); // kept, for it failed
}
