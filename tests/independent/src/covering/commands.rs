//! MMU commands: allocation of each size, and the queues.

use super::script::{Bytes, Script};
use crate::address::MacAddress;
use crate::chip::{control, rcr};
use crate::places::*;

/// "20h to 27h allocate 1 to 8 pages: done exactly when that many are free".
pub fn allocation(script: &mut Script) {
    // granted while there is room: 1 to 6 make 21 pages
    for pages in 1..=8 {
        script.allocate(pages);
        script.get(PACKET);
    }
    script.allocate(3);
    script.get(MIR);
    for pages in 1..=8 {
        script.allocate(pages);
    }
    // with a result that is replaced by 80h; each request waits for more than
    // the one page that is freed next
    for pages in (1..=8).rev() {
        script.release(0);
        script.allocate(1);
        script.allocate(pages);
        script.get(PACKET);
    }
    script.command(FREE_ALL);
    in_holes(script);
}

/// Each size in pages that are not adjacent and do not have the packet's number.
fn in_holes(script: &mut Script) {
    script.allocate(2);
    for _ in 0..13 {
        script.allocate(1);
    }
    for packet in (1..=13).step_by(2) {
        script.release(packet);
    }
    for pages in 1..=8 {
        let packet = script.allocate(pages);
        script.get(MIR);
        script.release(packet);
    }
}

pub fn queues(script: &mut Script) {
    script.put(CONTROL, control::RECEIVE_BAD);
    script.put(RCR, rcr::RXEN);
    script.enable(0);
    reserved(script);
    refused_packets(script);
    removals(script);
    for command in [EMPTY_TX, FREE_ALL] {
        all_queues(script);
        script.command(command);
        for place in [MIR, PACKET, HEADS, INTERRUPT] {
            script.get(place);
        }
    }
}

/// "Other values: 4."
fn reserved(script: &mut Script) {
    let values = [
        0x01, 0x10, 0x1f, 0x28, 0x2f, 0x30, 0x41, 0x50, 0x61, 0x70, 0x81, 0x90, 0xa1, 0xb0, 0xc1,
        0xd0, 0xe1, 0xf0, 0xff,
    ];
    for value in values {
        script.command(value);
    }
    for bytes in [Bytes::Low, Bytes::Both] {
        script.put_bytes(COMMAND, bytes, 0x0028);
        script.put_bytes(COMMAND, bytes, 0xff00);
        script.put_bytes(PACKET, bytes, 0x0fd5); // "value mod 64"
        script.get(PACKET);
    }
}

/// A0h and C0h by either width, of packets that are free, queued or idle.
fn refused_packets(script: &mut Script) {
    let received = script.filled(18);
    script.enqueue(received);
    let sending = script.allocate(2);
    script.enqueue(sending);
    script.frame(MacAddress::BROADCAST, 18, 0);
    let arrived = script.chip().rx.port();
    let free = 20;
    for command in [RELEASE, ENQUEUE] {
        for packet in [arrived, sending, free, 24, 63] {
            for bytes in [Bytes::Low, Bytes::Both] {
                script.choose(packet);
                script.put_bytes(COMMAND, bytes, command.into());
            }
        }
    }
    let idle = script.allocate(1);
    script.release(idle);
    script.send(0, 0, 0);
    // once more while it is in completion, then out of the queues, then freed
    script.enqueue(received);
    script.command(EMPTY_TX);
    sent_again(script, received);
    script.release(sending);
    script.release(received);
    script.command(RELEASE);
    script.command(ENQUEUE);
    script.command(FREE_ALL);
}

fn sent_again(script: &mut Script, packet: u8) {
    for _ in 0..2 {
        script.enqueue(packet);
        script.send(0, 0, 0);
    }
    script.get(HEADS);
}

/// 60h and 80h of a head that is not the packet that the register names.
fn removals(script: &mut Script) {
    for command in [REMOVE_RX, RELEASE_RX] {
        for bytes in [Bytes::Low, Bytes::Both] {
            script.put_bytes(COMMAND, bytes, command.into());
        }
        let other = script.allocate(3);
        for _ in 0..3 {
            script.frame(MacAddress::BROADCAST, 18, 0);
        }
        script.choose(other);
        for _ in 0..3 {
            script.command(command);
            script.get(HEADS);
            script.get(MIR);
        }
        script.command(0x00);
        script.command(FREE_ALL);
    }
}

/// Something in RX, in TX and in completion, and a result.
fn all_queues(script: &mut Script) {
    for _ in 0..4 {
        let packet = script.filled(18);
        script.enqueue(packet);
    }
    script.send(0, 0, 0);
    script.frame(MacAddress::BROADCAST, 18, 0);
    script.allocate(1);
}
