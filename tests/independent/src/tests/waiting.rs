//! "An allocation that waits".

use super::{allocate, frame_of, get, put, record, result, send, word_at};
use super::{
    COMMAND, CONTROL, DATA, ENQUEUE, LOAD, LOOK, MIR, PACKET, POINTER, RCR, RELEASE_RX, TCR,
};
use crate::chip::Chip;
use crate::frame::Arrival;
use crate::memory::PacketNumber;
use crate::refusal::Refusal;
use crate::registers::Width::Word;
use crate::told::tell;

const FREE_ALL: u16 = 0x40;
const REMOVE_RX: u16 = 0x60;
const RELEASE: u16 = 0xa0;
const EMPTY_TX: u16 = 0xe0;

const RESERVED: (u16, u8) = (0, 0xa);
const AUTO_RELEASE: u16 = 0x0800;
const ALLOCATION_BIT: u8 = 1 << 3;

fn release(chip: &mut Chip, packet: u16) {
    put(chip, PACKET, packet);
    put(chip, COMMAND, RELEASE);
}

/// Packets from 0 on with so many pages each.
fn taken(pages: &[u8]) -> Chip {
    let mut chip = Chip::default();
    for &pages in pages {
        allocate(&mut chip, pages);
    }
    chip
}

/// "24 pages taken, another allocation reads 80h": packets 0 to 3, of 8, 8, 6
/// and 2 pages, and a request.
fn waiting_for(pages: u8) -> Chip {
    let mut chip = taken(&[8, 8, 6, 2]);
    allocate(&mut chip, pages);
    waits(&mut chip, pages);
    chip
}

/// A request for so many pages waits, as the driver sees it too.
fn waits(chip: &mut Chip, pages: u8) {
    assert_eq!(chip.registers.waiting, Some(pages.into()));
    assert_eq!(result(chip), 0x80);
    assert_eq!(chip.interrupt_status() & ALLOCATION_BIT, 0);
}

/// Nothing waits any more, and the result reads the number.
fn granted(chip: &mut Chip, packet: u16, pages: &[u8]) {
    assert_eq!(chip.registers.waiting, None);
    assert_eq!(result(chip), packet);
    assert_ne!(chip.interrupt_status() & ALLOCATION_BIT, 0);
    assert_eq!(pages_of(chip, packet), pages);
}

fn pages_of(chip: &Chip, packet: u16) -> Vec<u8> {
    let packet = PacketNumber::new(chip.part(), packet as u8).unwrap();
    let pages = chip.packets.pages(packet);
    pages.iter().map(|page| page.get()).collect()
}

/// Accepts every frame of 64 bytes or more.
fn receive(chip: &mut Chip) {
    put(chip, RCR, 0x0102);
}

fn arrive(chip: &mut Chip, length: usize) -> Arrival {
    chip.arrive(&frame_of(length), false).unwrap()
}

/// Puts the packet into TX with a usable count.
fn enqueue(chip: &mut Chip, packet: u16) {
    put(chip, TCR, 1);
    put(chip, PACKET, packet);
    put(chip, POINTER, LOAD | 2);
    put(chip, DATA, 12);
    put(chip, COMMAND, ENQUEUE);
}

/// "after a release of enough pages the result reads the granted number".
#[test]
fn a_release_of_enough_pages_grants() {
    let mut chip = waiting_for(1);
    release(&mut chip, 3);
    granted(&mut chip, 3, &[22]);
    assert_eq!(get(&mut chip, MIR), 0x0118);
}

#[test]
fn a_release_of_too_few_pages_does_not() {
    let mut chip = waiting_for(8);
    release(&mut chip, 3);
    waits(&mut chip, 8);
    assert_eq!(get(&mut chip, MIR), 0x0218);
    release(&mut chip, 2);
    granted(&mut chip, 2, &[16, 17, 18, 19, 20, 21, 22, 23]);
}

/// One page less is too few.
#[test]
fn as_many_as_are_free_are_enough() {
    for (pages, enough) in [(6, true), (7, false)] {
        let mut chip = waiting_for(pages);
        release(&mut chip, 2);
        assert_eq!(chip.registers.waiting.is_none(), enough);
    }
}

/// "the lowest number and pages after the release, the ones just freed
/// included", but no others.
#[test]
fn the_lowest_number_and_pages_are_granted() {
    let mut chip = taken(&[1, 2, 1, 8, 8, 4]);
    allocate(&mut chip, 3);
    waits(&mut chip, 3);
    release(&mut chip, 2);
    waits(&mut chip, 3);
    release(&mut chip, 1);
    granted(&mut chip, 1, &[1, 2, 3]);
    allocate(&mut chip, 2);
    release(&mut chip, 5);
    granted(&mut chip, 2, &[20, 21]);
}

/// "One release, at most one grant": the next release finds nothing waiting.
#[test]
fn a_grant_ends_the_wait() {
    let mut chip = waiting_for(2);
    release(&mut chip, 3);
    granted(&mut chip, 3, &[22, 23]);
    release(&mut chip, 0);
    granted(&mut chip, 3, &[22, 23]);
    assert_eq!(get(&mut chip, MIR), 0x0818);
}

/// "A new allocate command replaces a waiting one".
#[test]
fn a_second_request_replaces_the_first() {
    let mut chip = taken(&[8, 8, 6]);
    allocate(&mut chip, 4);
    waits(&mut chip, 4);
    allocate(&mut chip, 8);
    waits(&mut chip, 8);
    release(&mut chip, 2);
    granted(&mut chip, 2, &[16, 17, 18, 19, 20, 21, 22, 23]);
}

#[test]
fn a_second_request_that_is_granted_ends_the_first() {
    let mut chip = taken(&[8, 8, 6]);
    allocate(&mut chip, 4);
    allocate(&mut chip, 2);
    granted(&mut chip, 3, &[22, 23]);
    release(&mut chip, 0);
    granted(&mut chip, 3, &[22, 23]);
}

/// "40h and a soft reset drop it".
#[test]
fn clearing_drops_the_request() {
    for (at, value) in [(COMMAND, FREE_ALL), (RCR, 0x8000)] {
        let mut chip = waiting_for(3);
        put(&mut chip, at, value);
        assert_eq!(chip.registers.waiting, None);
        assert_eq!(result(&mut chip), 0x80);
        put(&mut chip, RCR, 0x0102);
        assert_eq!(arrive(&mut chip, 64), Arrival::Stored);
        put(&mut chip, COMMAND, RELEASE_RX);
        assert_eq!(result(&mut chip), 0x80);
        assert_eq!(get(&mut chip, MIR), 0x1818);
    }
}

/// "E0h leaves it."
#[test]
fn emptying_tx_leaves_the_request() {
    let mut chip = waiting_for(3);
    enqueue(&mut chip, 2);
    put(&mut chip, COMMAND, EMPTY_TX);
    waits(&mut chip, 3);
    release(&mut chip, 2);
    granted(&mut chip, 2, &[16, 17, 18]);
}

/// "Frames still take free pages under their old rule", and may overtake.
#[test]
fn a_frame_overtakes_the_request() {
    let mut chip = taken(&[8, 8, 6]);
    receive(&mut chip);
    allocate(&mut chip, 4);
    assert_eq!(arrive(&mut chip, 256), Arrival::Stored);
    waits(&mut chip, 4);
    assert_eq!(pages_of(&chip, 3), [22, 23]);
    assert_eq!(arrive(&mut chip, 64), Arrival::NoRoom);
    waits(&mut chip, 4);
    put(&mut chip, COMMAND, RELEASE_RX);
    waits(&mut chip, 4);
    release(&mut chip, 2);
    granted(&mut chip, 2, &[16, 17, 18, 19]);
}

#[test]
fn remove_and_release_grants_and_remove_does_not() {
    let mut chip = taken(&[8, 8, 6]);
    receive(&mut chip);
    assert_eq!(arrive(&mut chip, 64), Arrival::Stored);
    assert_eq!(arrive(&mut chip, 64), Arrival::Stored);
    allocate(&mut chip, 1);
    put(&mut chip, COMMAND, REMOVE_RX);
    waits(&mut chip, 1);
    put(&mut chip, COMMAND, RELEASE_RX);
    granted(&mut chip, 4, &[23]);
    assert!(chip.rx.is_empty());
}

/// "a good send with auto release": it writes EPHSR, releases, then grants.
#[test]
fn a_good_send_with_auto_release_grants() {
    let mut chip = waiting_for(2);
    put(&mut chip, CONTROL, AUTO_RELEASE);
    enqueue(&mut chip, 3);
    assert_eq!(send(&mut chip, 0, 0, 0), Ok(10));
    granted(&mut chip, 3, &[22, 23]);
    assert!(chip.completion.is_empty());
    assert_eq!(word_at(&mut chip, LOOK), 0x0001, "EPHSR stands in the page");
    assert_eq!(word_at(&mut chip, LOOK | 2), 12, "no other byte changed");
}

#[test]
fn other_sends_leave_the_request() {
    for (control, outcome) in [(AUTO_RELEASE, 5), (0, 0)] {
        let mut chip = waiting_for(2);
        put(&mut chip, CONTROL, control);
        enqueue(&mut chip, 3);
        assert_eq!(send(&mut chip, outcome, 0, 0), Ok(10));
        waits(&mut chip, 2);
        release(&mut chip, 3);
        granted(&mut chip, 3, &[22, 23]);
    }
}

/// "The reserved register does not hold a grant back".
#[test]
fn reserved_pages_are_granted() {
    let mut chip = waiting_for(2);
    put(&mut chip, RESERVED, 24);
    release(&mut chip, 3);
    granted(&mut chip, 3, &[22, 23]);
}

/// "A refusal .. changes nothing".
#[test]
fn a_refused_release_leaves_the_request() {
    let mut chip = waiting_for(2);
    enqueue(&mut chip, 3);
    assert_eq!(chip.write(Word, 0, RELEASE), Err(Refusal::StillQueued));
    put(&mut chip, PACKET, 9);
    assert_eq!(chip.write(Word, 0, RELEASE), Err(Refusal::NotAllocated));
    assert_eq!(chip.write(Word, 0, RELEASE_RX), Err(Refusal::RxEmpty));
    waits(&mut chip, 2);
}

/// Memory is as it was but for what a send writes, and a driver.
#[test]
fn a_grant_changes_no_byte() {
    let mut chip = waiting_for(2);
    enqueue(&mut chip, 0);
    let before = chip.packets.bytes().to_vec();
    release(&mut chip, 3);
    granted(&mut chip, 3, &[22, 23]);
    assert_eq!(chip.packets.bytes(), before);
}

/// The last number of the registers' line but for the link's two.
#[test]
fn a_waiting_request_is_told() {
    let mut records = vec![record(&[3, 0xe, 2])];
    records.extend([0x27, 0x27, 0x26, 0x24].map(|command| record(&[3, 0x0, command])));
    let told = tell(&records);
    let registers = told.lines().nth(records.len()).unwrap();
    assert!(registers.starts_with("registers 2 "));
    assert!(registers.ends_with(" 1 0 5 0 0"), "{registers}");
}
