//! Sends: what they put out, how they end, why they are refused.

use super::script::{Bytes, Script};
use crate::address::MacAddress;
use crate::chip::{control, interrupt, rcr, tcr};
use crate::places::*;

/// "if bit 5 of the byte at c − 1 is set": the data is odd.
pub const ODD: u8 = 0x20;
/// "bit 4 of the packet's control byte": an FCS even with NOCRC.
pub const CRC: u8 = 0x10;

/// Receives damaged frames too, and may send.
pub fn set_up(script: &mut Script) {
    script.put(CONTROL, control::RECEIVE_BAD);
    script.put(RCR, rcr::RXEN);
    script.enable(0);
}

/// Byte count and the control byte's two bits, of the chosen packet.
pub fn set_count(script: &mut Script, count: u16, bits: u8) {
    script.load(2, &[count]);
    let noise = script.random.byte() & !(ODD | CRC);
    script.load_byte(count - 1, noise | bits);
}

/// The chosen packet, sent and acknowledged.
pub fn send_chosen(script: &mut Script, outcome: u8) {
    script.command(ENQUEUE);
    script.send(outcome, 0, 0);
    script.acknowledge(interrupt::COMPLETION);
}

/// A page of random bytes, sent in every length around 60: good and failed,
/// padded and not, even and odd.
pub fn put_out(script: &mut Script) {
    set_up(script);
    let packet = script.filled(250);
    script.choose(packet);
    send_chosen(script, 0);
    for (pad, outcome) in [(0, 0), (0, 2), (tcr::PAD_EN, 0), (tcr::PAD_EN, 5)] {
        for (count, odd) in [12, 64, 66, 72]
            .into_iter()
            .flat_map(|count| [(count, 0), (count, ODD)])
        {
            script.enable(pad);
            set_count(script, count, odd);
            send_chosen(script, outcome);
        }
    }
    script.enable(tcr::PAD_EN);
    set_count(script, 256, 0);
    send_chosen(script, 0);
    set_count(script, 256, ODD);
    send_chosen(script, 3);
}

/// Data over two and three pages, which are adjacent.
pub fn put_out_pages(script: &mut Script) {
    set_up(script);
    send_filled(script);
}

/// Data over two and three pages, which are not.
pub fn put_out_pieces(script: &mut Script) {
    set_up(script);
    make_gaps(script);
    send_filled(script);
}

fn send_filled(script: &mut Script) {
    for length in [301, 520] {
        let packet = script.filled(length);
        script.choose(packet);
        send_chosen(script, 0);
        script.command(RELEASE);
    }
}

/// Single pages from 0 on, with every other one free.
pub fn make_gaps(script: &mut Script) {
    for _ in 0..9 {
        script.allocate(1);
    }
    for packet in [0, 2, 4, 6] {
        script.release(packet);
    }
}

/// Eight pages, all of them used, with FCS and without.
pub fn put_out_most(script: &mut Script) {
    set_up(script);
    let packet = script.allocate(8);
    script.choose(packet);
    let words: Vec<u16> = (0..4).map(|_| script.random.word()).collect();
    for address in [4, 1_000, 2_038] {
        script.load(address, &words);
    }
    set_count(script, 2_048, ODD);
    send_chosen(script, 0);
    script.enable(tcr::NOCRC);
    send_chosen(script, 0);
}

/// A broadcast, a group and a station's address.
const DESTINATIONS: [[u16; 3]; 3] = [
    [0xffff, 0xffff, 0xffff],
    [0x0003, 0xffff, 0xffff],
    [0xfffe, 0xffff, 0xffff],
];

/// Outcome, collisions, deferral, each with the TCR bits that it is tried with.
const ENDINGS: [(u16, [u8; 3]); 17] = [
    (0, [0, 0, 0]),
    (0, [0, 1, 1]),
    (0, [0, 2, 2]),
    (0, [0, 9, 0]),
    (0, [1, 16, 0]),
    (0, [1, 16, 1]),
    (0, [2, 0, 2]),
    (0, [2, 1, 0]),
    (0, [5, 2, 1]),
    (0, [5, 15, 2]),
    (0, [3, 0, 0]),
    (tcr::MON_CSN, [3, 1, 0]),
    (tcr::FDSE, [3, 1, 0]),
    (tcr::MON_CSN | tcr::FDSE, [3, 0, 1]),
    (tcr::MON_CSN | tcr::FDSE, [4, 0, 0]),
    (tcr::STP_SQET, [4, 2, 0]),
    (tcr::STP_SQET | tcr::FDSE, [4, 0, 2]),
];

/// Every ending, to each kind of address, with bits of the control register.
pub fn verdicts(script: &mut Script, bits: u16) {
    set_up(script);
    script.put(CONTROL, bits);
    script.allocate(1);
    for destination in DESTINATIONS {
        for (bits, [outcome, collisions, deferral]) in ENDINGS {
            if script.chip().selected_packet().is_none() {
                script.allocate(1); // its bytes are still there
            }
            script.enable(bits);
            script.load(2, &[12]);
            script.load(4, &destination);
            script.command(ENQUEUE);
            script.send(outcome, collisions, deferral);
            script.acknowledge(interrupt::COMPLETION);
        }
    }
    latch(script);
}

/// "TX EMPTY is set if TX is now empty", and stays as it was if not.
fn latch(script: &mut Script) {
    script.put(CONTROL, control::RECEIVE_BAD);
    script.enable(0);
    for acknowledged in [false, true] {
        for _ in 0..3 {
            let packet = script.filled(18);
            script.enqueue(packet);
        }
        if acknowledged {
            script.acknowledge(interrupt::TX_EMPTY);
        }
        for _ in 0..3 {
            script.send(0, 0, 0);
            script.get(INTERRUPT);
        }
        script.put_bytes(INTERRUPT, Bytes::Both, 0x0406);
    }
}

/// Each outcome within its limits.
const WITHIN: [[u8; 3]; 6] = [
    [0, 15, 2],
    [1, 16, 0],
    [2, 0, 0],
    [3, 15, 1],
    [4, 1, 2],
    [5, 2, 0],
];

/// Each outcome outside of them.
const OUTSIDE: [[u8; 3]; 10] = [
    [0, 16, 0],
    [0, 0, 3],
    [1, 15, 0],
    [1, 0, 0],
    [2, 16, 0],
    [3, 255, 0],
    [4, 0, 255],
    [5, 17, 1],
    [6, 0, 0],
    [255, 16, 2],
];

/// Sends of every outcome, none of which is to be done.
fn refuse_all(script: &mut Script) {
    for [outcome, collisions, deferral] in [&WITHIN[..], &OUTSIDE].concat() {
        script.send(outcome, collisions, deferral);
    }
}

/// Sends within their limits.
fn refuse_within(script: &mut Script) {
    for [outcome, collisions, deferral] in WITHIN {
        script.send(outcome, collisions, deferral);
    }
}

/// "Sends 16, 15, 11, 12, 13, 14", and 18 and 19 behind 13: all but 14 by each
/// outcome.
pub fn refusals(script: &mut Script) {
    refuse_all(script);
    set_up(script);
    refuse_all(script);
    let packet = script.filled(18);
    script.enqueue(packet);
    for count in [10, 11, 13, 257, 258, 0x8001, 0xfffe] {
        script.load(2, &[count]);
        refuse_all(script);
    }
    script.put(TCR, 0);
    refuse_all(script);
    for count in [13, 10] {
        script.load(2, &[count]);
        script.send(0, 0, 0);
    }
    script.load(2, &[12]);
    refuse_all(script);
    script.put(RCR, 0);
    script.enable(0);
    script.send(0, 0, 0);
}

/// "25 sends of packet 0, each enqueued again and none acknowledged, end in 14";
/// with 13, 18 and 19 before it.
pub fn completion_full(script: &mut Script) {
    set_up(script);
    let packet = script.filled(18);
    script.choose(packet);
    for _ in 0..24 {
        script.command(ENQUEUE);
        script.send(0, 0, 0);
    }
    refuse_all(script);
    script.command(ENQUEUE);
    refuse_all(script);
    for count in [13, 10, 258] {
        script.load(2, &[count]);
        refuse_within(script);
    }
    script.put(TCR, 0);
    refuse_all(script);
    script.load(2, &[24]);
    script.enable(0);
    // released at once, a good one needs no place; a failed one does
    script.put(CONTROL, control::AUTO_RELEASE);
    script.send(5, 0, 0);
    script.send(0, 0, 0);
    script.get(HEADS);
    script.put(CONTROL, control::RECEIVE_BAD);
    script.frame(MacAddress::BROADCAST, 18, 0);
    script.acknowledge(interrupt::COMPLETION);
    script.get(HEADS);
}

/// Byte counts rewritten in TX, those of a packet of one page and one of two by
/// turns: a refusal's value is the count that stands there now.
pub fn counts(script: &mut Script) {
    set_up(script);
    let one = script.filled(18);
    let two = script.allocate(2);
    script.enqueue(one);
    script.enqueue(two);
    script.send(0, 0, 0);
    script.send(0, 0, 0); // a count never written
    let unusable = [2, 9, 511, 513, 514, 0x07ff, 0x0800, 0x7ffe, 0x7fff, 0xffff];
    refuse_each(script, &unusable);
    script.load(2, &[512]);
    refuse_each(script, &[11, 10, 516]);
    script.load(2, &[512]);
    script.send(0, 0, 0);
    for (packet, count, usable) in [(one, 257, 256), (two, 600, 14)] {
        script.enqueue(packet);
        refuse_each(script, &[count]);
        script.load(2, &[usable]);
        script.send(0, 0, 0);
    }
    script.get(HEADS);
}

/// Each of the counts in the chosen packet, refused by one outcome or another.
fn refuse_each(script: &mut Script, counts: &[u16]) {
    for (&count, [outcome, collisions, deferral]) in counts.iter().zip(WITHIN.into_iter().cycle()) {
        script.load(2, &[count]);
        script.send(outcome, collisions, deferral);
    }
}
