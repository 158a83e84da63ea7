//! The interrupt line by each status bit, acknowledges, and EPH.

use super::registers::ENDINGS;
use super::script::{Bytes, Script};
use crate::address::MacAddress;
use crate::chip::{control, interrupt, rcr};
use crate::places::*;

/// Receives broadcasts of any length, and may send.
fn set_up(script: &mut Script) {
    script.put(CONTROL, control::RECEIVE_BAD | control::TX_ERROR_ENABLE);
    script.put(RCR, rcr::RXEN);
    script.enable(0);
}

/// Every mask that tells the one status bit from the others.
fn show(script: &mut Script, bit: u8) {
    for mask in [bit, 0xff, !bit, bit | 0xc0, 0xc0, 0] {
        script.mask(mask);
    }
    for other in (0..6).map(|bit| 1 << bit).filter(|&other| other != bit) {
        script.mask(other);
    }
    script.get(INTERRUPT);
}

/// Each bit of the status alone.
pub fn line(script: &mut Script) {
    set_up(script);
    show(script, interrupt::TX_EMPTY);
    script.acknowledge(interrupt::TX_EMPTY);
    script.allocate(1);
    show(script, interrupt::ALLOCATION);
    script.command(FREE_ALL);
    script.frame(MacAddress::BROADCAST, 18, 0);
    show(script, interrupt::RX);
    script.command(REMOVE_RX);
    script.enqueue(0);
    script.send(0, 0, 0);
    script.acknowledge(interrupt::TX_EMPTY);
    show(script, interrupt::COMPLETION);
    script.acknowledge(interrupt::COMPLETION);
    script.put(RESERVED, 24);
    script.frame(MacAddress::BROADCAST, 18, 0);
    show(script, interrupt::RX_OVERRUN);
    script.acknowledge(interrupt::RX_OVERRUN);
    script.enqueue(0);
    script.send(5, 0, 0);
    script.acknowledge(interrupt::TX_EMPTY | interrupt::COMPLETION);
    show(script, interrupt::EPH);
}

/// "bit 1 removes the completion head if any; 2 and 4 clear their latch", by
/// the byte and by the word, which brings a mask too.
pub fn acknowledge(script: &mut Script) {
    for bytes in [Bytes::Low, Bytes::Both] {
        set_up(script);
        script.put(RESERVED, 0);
        script.frame(MacAddress::BROADCAST, 18, 0);
        let packet = script.filled(18);
        let meanings = [
            interrupt::COMPLETION,
            interrupt::TX_EMPTY,
            interrupt::RX_OVERRUN,
            interrupt::RX | interrupt::ALLOCATION | interrupt::EPH,
            0,
        ];
        for bits in meanings {
            raise_all(script, packet);
            for _ in 0..4 {
                let mask = script.random.word() & 0xff00;
                script.put_bytes(INTERRUPT, bytes, mask | u16::from(bits));
                script.get(INTERRUPT);
            }
            script.mask(bits);
            script.command(EMPTY_TX);
        }
    }
}

/// Three numbers in completion, both latches set, a result and EPH.
fn raise_all(script: &mut Script, packet: u8) {
    for outcome in [0, 0, 5] {
        script.enable(0);
        script.enqueue(packet);
        script.send(outcome, 0, 0);
    }
    script.put(RESERVED, 24);
    script.frame(MacAddress::BROADCAST, 18, 0);
    script.allocate(1);
    script.get(INTERRUPT);
}

/// "EPH is (EPHSR bit 12 and control bit 6) or (any of EPHSR 15, 10, 9, 5, 4
/// while bit 0 is clear, and control bit 5)."
pub fn eph(script: &mut Script) {
    set_up(script);
    script.mask(interrupt::EPH);
    let packet = script.filled(18);
    for (bits, outcome, collisions) in ENDINGS {
        script.enable(bits);
        script.enqueue(packet);
        script.send(outcome, collisions, 0);
        under_controls(script);
    }
}

/// The status under each choice of control bits.
pub fn under_controls(script: &mut Script) {
    for bits in enabled() {
        script.put(CONTROL, control::RECEIVE_BAD | bits);
        script.get(INTERRUPT);
    }
}

/// Each choice of the control bits that let EPH be raised.
pub fn enabled() -> impl Iterator<Item = u16> {
    let bits = [
        control::TX_ERROR_ENABLE,
        control::COUNTER_ENABLE,
        control::LINK_ENABLE,
    ];
    (0..8).map(move |choice| {
        let chosen = (0..3).filter(|at| choice >> at & 1 != 0);
        chosen.fold(0, |word, at| word | bits[at])
    })
}
