//! Soft resets, of a chip on which everything is set.

use super::parts;
use super::script::{Bytes, Script};
use crate::address::MacAddress;
use crate::chip::{control, rcr, tcr, Pointer};
use crate::places::*;

pub fn play(script: &mut Script) {
    for bytes in [Bytes::Both, Bytes::High, Bytes::Low] {
        set_all(script);
        if bytes == Bytes::Low {
            // a low byte resets only while bit 15 is set
            script.put_bytes(RCR, Bytes::High, rcr::SOFT_RESET);
            set_registers(script);
        }
        let noise = script.random.word();
        script.put_bytes(RCR, bytes, rcr::SOFT_RESET | noise);
        look(script);
    }
    parts::ask_again(script);
    script.put(RCR, 0);
    look(script);
}

/// Registers, queues, latches and memory: nothing is as at power-up.
fn set_all(script: &mut Script) {
    set_registers(script);
    script.put(RCR, rcr::RXEN | rcr::STRIP_CRC);
    script.put(RESERVED, 0);
    for _ in 0..3 {
        let packet = script.filled(64);
        script.enqueue(packet);
    }
    script.send(2, 2, 1);
    script.frame(MacAddress::BROADCAST, 64, 0);
    script.put(RESERVED, 20);
    script.frame(MacAddress::BROADCAST, 256, 0);
    script.acknowledge(0x04);
    script.choose(9);
}

/// What a driver can write.
fn set_registers(script: &mut Script) {
    script.put(TCR, tcr::TXENA | tcr::PAD_EN | 0x2040);
    script.put(RESERVED, 5);
    for offset in [4, 6, 8] {
        let value = script.random.word() | 0x0100;
        script.put(Place(1, offset), value);
    }
    script.put(
        CONTROL,
        control::TX_ERROR_ENABLE | control::COUNTER_ENABLE | 0x1081,
    );
    for offset in [0, 2, 4, 6] {
        let value = script.random.word() | 0x8001;
        script.put(Place(3, offset), value);
    }
    script.allocate(2);
    script.put(POINTER, Pointer::AUTO_INCREMENT | Pointer::READ | 0x1a34);
    script.mask(0xd7);
    script.choose(9);
    script.plug(0);
    script.plug(1);
}

/// Every register whose reset value shows.
fn look(script: &mut Script) {
    for offset in [0x0, 0x2, 0x4, 0x6, 0x8, 0xa, 0xe] {
        script.get(Place(0, offset));
    }
    for offset in [0x4, 0x6, 0x8, 0xc] {
        script.get(Place(1, offset));
    }
    for offset in [0x2, 0x4, 0x6, 0xc] {
        script.get(Place(2, offset));
    }
    for offset in [0x0, 0x2, 0x4, 0x6] {
        script.get(Place(3, offset));
    }
}
