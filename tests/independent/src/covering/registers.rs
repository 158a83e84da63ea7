//! Every offset of every bank, and the registers whose accesses do more.

use super::script::{Bytes, Script, Way};
use crate::address::MacAddress;
use crate::chip::{control, rcr, tcr};
use crate::places::*;

/// Every offset of the banks in every way, on a chip that holds something.
pub fn sweep(script: &mut Script, banks: &[u8]) {
    furnish(script);
    for &bank in banks {
        for offset in 0..=16 {
            for way in Way::ALL {
                script.select(bank);
                let value = sweep_value(script, bank, offset);
                script.access(way, offset, value);
            }
        }
        // "value mod 8"
        let noise = script.random.word() & 0xfff8;
        script.access(Way::WriteWord, 0xe, noise | 0x40 | u16::from(bank));
        script.access(Way::WriteByte, 0xe, 0xf8 | u16::from(bank));
        script.access(Way::ReadByte, 0xff, 0);
    }
}

/// Any value that does not reset.
fn sweep_value(script: &mut Script, bank: u8, offset: u8) -> u16 {
    match (bank, offset & !1) {
        (0, 0x4) => script.random.word() & 0x7f7f,
        _ => script.random.word(),
    }
}

/// A packet in each queue, and a counted failure.
fn furnish(script: &mut Script) {
    script.put(CONTROL, control::RECEIVE_BAD);
    script.put(RCR, rcr::RXEN);
    script.enable(0);
    for _ in 0..2 {
        let packet = script.filled(18);
        script.enqueue(packet);
    }
    script.send(2, 3, 1);
    script.frame(MacAddress::BROADCAST, 18, 0);
    script.allocate(2);
}

/// Which send leaves which bits in EPHSR: bits 0; 0 and 5; 4, 9, 10, 5, 15.
pub const ENDINGS: [(u16, u8, u8); 7] = [
    (0, 0, 0),
    (0, 4, 0),
    (0, 1, 16),
    (0, 2, 2),
    (tcr::MON_CSN, 3, 1),
    (tcr::STP_SQET, 4, 0),
    (0, 5, 0),
];

/// "A write to either byte of TCR that leaves TXENA set clears EPHSR bits 15,
/// 10, 9, 5, 4 and 0."
pub fn transmit_control(script: &mut Script) {
    script.put(CONTROL, control::RECEIVE_BAD);
    script.put(RCR, rcr::RXEN);
    let packet = script.filled(18);
    for (bits, outcome, collisions) in ENDINGS {
        let ended = |script: &mut Script| {
            script.enable(bits);
            script.enqueue(packet);
            script.send(outcome, collisions, 0);
        };
        ended(script);
        for bytes in [Bytes::Low, Bytes::High, Bytes::Both] {
            let other = script.random.word() & !tcr::TXENA;
            script.put_bytes(TCR, bytes, other);
            script.get(EPHSR);
        }
        script.put_bytes(TCR, Bytes::Low, tcr::TXENA);
        script.get(EPHSR);
        for bytes in [Bytes::Both, Bytes::High] {
            ended(script);
            script.put_bytes(TCR, bytes, bits | tcr::TXENA);
            script.get(EPHSR);
        }
    }
    script.get(TCR);
}

/// "RCR bit 0 (RX_ABORT) can only be cleared by a write, never set."
pub fn receive_control(script: &mut Script) {
    script.put(RESERVED, 24);
    for bytes in [Bytes::Low, Bytes::Both] {
        script.put(RCR, rcr::RXEN);
        script.put_bytes(RCR, bytes, rcr::RXEN | rcr::RX_ABORT);
        script.get(RCR);
        abort(script);
        for kept in Bytes::ALL {
            script.put_bytes(RCR, kept, rcr::RXEN | rcr::RX_ABORT | 0x00c0);
            script.get(RCR);
        }
        script.put_bytes(RCR, bytes, rcr::RXEN);
        script.get(RCR);
    }
    // each bit by itself is stored and read back
    for bit in 1..15 {
        script.put(RCR, 1 << bit);
        script.get(RCR);
    }
}

/// A frame for which there is no room.
fn abort(script: &mut Script) {
    script.frame(MacAddress::BROADCAST, 64, 0);
    script.get(RCR);
}
