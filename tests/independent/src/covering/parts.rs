//! The parts: asked for first, with another byte and later on, and the limits of
//! each.

use super::script::{Script, Way};
use super::sends;
use crate::address::MacAddress;
use crate::chip::{control, interrupt, rcr, Pointer};
use crate::part::Part;
use crate::places::*;

/// A part's bytes, and one that is none's.
const BYTES: [u8; 3] = [0x94, 0x96, 0x95];

/// In vain, for the first record has come.
pub fn ask_again(script: &mut Script) {
    for byte in BYTES {
        script.ask(byte);
    }
}

/// Every number granted, each with a page; one more waits, and gets the last.
pub fn limits(script: &mut Script, part: Part) {
    let size = part.packets() as u8;
    script.ask(part.byte());
    script.get(MIR);
    script.enable(0);
    for _ in 0..size {
        script.allocate(1);
    }
    script.get(PACKET);
    script.allocate(1);
    script.get(PACKET);
    script.get(MIR);
    use_last(script, size - 1);
    try_above(script, size);
    script.mask(interrupt::TX_EMPTY);
    let _ = script.say(&[5, 1]);
    ask_again(script);
    script.send(0, 0, 0);
    script.get(HEADS);
    script.release(size - 1);
    script.get(PACKET);
    give_all_back(script, size);
}

/// The last number is written, read and queued.
fn use_last(script: &mut Script, last: u8) {
    script.choose(last);
    script.load(2, &[12]);
    script.put(POINTER, Pointer::AUTO_INCREMENT | Pointer::READ | 2);
    script.get(DATA);
    script.command(ENQUEUE);
}

/// Numbers that no packet has: the first, the last of the other part, and the
/// last of the register.
fn try_above(script: &mut Script, size: u8) {
    let others: &[u8] = if size < 23 { &[23] } else { &[] };
    for &number in [&[size], others, &[63]].concat().iter() {
        script.choose(number);
        script.command(RELEASE);
        script.command(ENQUEUE);
        script.access(Way::ReadWord, DATA.1, 0);
        script.access(Way::WriteByte, DATA.1, 0);
    }
}

/// All numbers in TX, then 40h and a soft reset: they "keep the part".
fn give_all_back(script: &mut Script, size: u8) {
    for packet in 0..size {
        script.enqueue(packet);
    }
    script.command(FREE_ALL);
    script.get(MIR);
    script.allocate(1);
    script.put(RCR, rcr::SOFT_RESET);
    ask_again(script);
    script.get(MIR);
}

/// "the completion FIFO holds 18", and frames go by 18 pages.
pub fn full(script: &mut Script) {
    let part = Part::Lan91c94;
    script.ask(part.byte());
    sends::set_up(script);
    let packet = script.filled(18);
    script.choose(packet);
    for _ in 0..part.packets() {
        script.command(ENQUEUE);
        script.send(0, 0, 0);
    }
    script.command(ENQUEUE);
    script.send(0, 0, 0);
    script.send(5, 0, 0);
    // released at once, a good one needs no place
    script.put(CONTROL, control::AUTO_RELEASE | control::RECEIVE_BAD);
    script.send(0, 0, 0);
    script.acknowledge(interrupt::COMPLETION);
    script.get(HEADS);
    room(script, part);
}

/// "with another byte, gets 11": the part is the LAN91C96.
pub fn refused(script: &mut Script) {
    script.ask(0x95);
    ask_again(script);
    script.get(MIR);
    script.put(CONTROL, control::RECEIVE_BAD);
    script.put(RCR, rcr::RXEN);
    room(script, Part::Lan91c96);
}

/// Frames with all pages free, of which one too many is reserved or just not;
/// then the last number and the last page are a frame's, and there is no more.
fn room(script: &mut Script, part: Part) {
    let size = part.pages() as u8;
    for reserved in [size, size - 1, 0] {
        script.put(RESERVED, reserved.into());
        if reserved > 0 {
            short_frame(script);
        }
    }
    for _ in 0..size - 2 {
        script.allocate(1);
    }
    short_frame(script);
    script.get(HEADS);
    script.get(MIR);
    short_frame(script);
}

fn short_frame(script: &mut Script) {
    script.frame(MacAddress::BROADCAST, 18, 0);
}
