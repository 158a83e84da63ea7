//! A cable: every state of the link before every event, what raises EPH, and
//! where the link shows.

use super::interrupts::enabled;
use super::script::{Bytes, Script};
use crate::address::MacAddress;
use crate::chip::{control, interrupt, rcr, Pointer};
use crate::link::Link;
use crate::places::*;
use crate::wire::Check;

/// Receives broadcasts of any length, may send, and has the line up by EPH.
fn set_up(script: &mut Script) {
    script.put(CONTROL, control::RECEIVE_BAD | control::LINK_ENABLE);
    script.put(RCR, rcr::RXEN);
    script.enable(0);
    script.mask(interrupt::EPH);
}

/// Writes bytes of the control register as they are.
fn forget(script: &mut Script, bytes: Bytes) {
    let control = script.chip().registers.control;
    script.put_bytes(CONTROL, bytes, control);
}

/// Brings the link to a state: what was before a change is the contrary.
fn bring(script: &mut Script, link: Link) {
    script.plug((link.up != link.changed).into());
    forget(script, Bytes::High);
    script.plug(link.up.into());
}

/// What meets a link. Before them a packet of one page, loaded, is in no queue.
const MEETINGS: [fn(&mut Script, u8); 21] = [
    |script, _| script.plug(0),
    |script, _| script.plug(1),
    |script, _| script.plug(2),
    |script, _| script.plug(0xff),
    |script, packet| script.enqueue(packet),
    |script, _| script.send(0, 0, 0),
    |script, packet| {
        script.enqueue(packet);
        script.send(5, 0, 0);
    },
    |script, packet| {
        script.enqueue(packet);
        script.send(0, 0, 0); // TXENA is clear
    },
    |script, _| script.enable(0), // clears bit 15
    |script, _| script.enable(0), // clears nothing
    |script, _| script.frame(MacAddress::BROADCAST, 17, 0),
    |script, _| script.frame(MacAddress::BROADCAST, 18, 0),
    |script, _| forget(script, Bytes::Low),
    |script, _| forget(script, Bytes::High),
    |script, _| forget(script, Bytes::Both),
    |script, _| script.acknowledge(interrupt::EPH),
    |script, _| script.mask(0),
    |script, _| script.get(INTERRUPT),
    |script, _| script.get(CONTROL),
    |script, _| script.get(ECR),
    |script, _| script.command(EMPTY_TX),
];

/// Each of them, then a read that clears bit 12, and what throws all away.
pub fn meetings(script: &mut Script, link: Link) {
    set_up(script);
    let packet = script.filled(18);
    for meet in MEETINGS {
        bring(script, link);
        meet(script, packet);
    }
    count_to_fifteen(script, packet);
    bring(script, link);
    script.get(ECR);
    bring(script, link);
    script.command(FREE_ALL);
    // a low byte resets only while bit 15 is set
    for bytes in [Bytes::Both, Bytes::Low, Bytes::High] {
        bring(script, link);
        script.put_bytes(RCR, bytes, rcr::SOFT_RESET);
        script.get(EPHSR);
    }
}

/// Good sends after one collision, until EPHSR bit 12 is set.
fn count_to_fifteen(script: &mut Script, packet: u8) {
    script.choose(packet);
    for _ in 0..15 {
        script.command(ENQUEUE);
        script.send(0, 1, 0);
        script.acknowledge(interrupt::COMPLETION);
    }
}

/// Each state, set again, and each byte 1 that is refused.
const EVENTS: [u8; 10] = [1, 1, 2, 0xfe, 0, 0, 2, 0xfe, 1, 0];

/// "raising EPH while control bit 7 is set": up to the write that forgets it, by
/// either byte and by both, and by the one that sets bit 7 or clears it.
pub fn raised(script: &mut Script) {
    set_up(script);
    let enable = control::LINK_ENABLE;
    for (before, bytes, after) in [
        (enable, Bytes::Low, enable),
        (enable, Bytes::High, enable),
        (enable, Bytes::Both, enable),
        (0, Bytes::Low, enable),
        (enable, Bytes::Low, 0),
        (0, Bytes::Both, enable),
        (enable, Bytes::Both, 0),
    ] {
        script.put(CONTROL, before);
        for state in [0, 2, 0xff] {
            script.plug(state); // no change yet
        }
        for state in EVENTS {
            script.plug(state);
            script.get(INTERRUPT);
        }
        script.put_bytes(CONTROL, bytes, after);
        script.get(INTERRUPT);
        script.plug(1);
        script.put(CONTROL, enable);
        script.plug(1); // as it was
        script.plug(0); // raises EPH too
    }
    gathering(script);
}

/// Between the bytes of a frame, which is then stored.
fn gathering(script: &mut Script) {
    script.put(CONTROL, control::RECEIVE_BAD | control::LINK_ENABLE);
    script.gather(MacAddress::BROADCAST, 18, Check::Right);
    for state in EVENTS {
        script.plug(state);
    }
    let _ = script.say(&[6, 0]);
    script.get(HEADS);
}

/// A change, and a link that is up without one, under each choice of control
/// bits: with EPHSR clear, and with bit 0 beside it.
pub fn enabled_by(script: &mut Script) {
    set_up(script);
    let packet = script.filled(18);
    for sent in [false, true] {
        if sent {
            script.enqueue(packet);
            script.send(0, 0, 0);
        }
        for bits in enabled() {
            script.plug(1);
            script.put(CONTROL, bits);
            script.get(INTERRUPT);
            script.plug(0);
            script.get(INTERRUPT);
        }
    }
}

/// "EPHSR bit 14 shows it", to reads of either byte and of both, and in the
/// status word of a send; the word in memory stays what it was.
pub fn shown(script: &mut Script) {
    set_up(script);
    let packet = script.filled(18);
    look(script);
    for outcome in [0, 5] {
        for state in [1, 0] {
            script.plug(state);
            look(script);
            script.enable(0);
            script.enqueue(packet);
            script.send(outcome, 0, 0);
            look(script);
            for state in [state, 1 - state] {
                script.plug(state);
                look_at_status(script);
            }
        }
    }
}

/// EPHSR by each byte and by both.
fn look(script: &mut Script) {
    for bytes in Bytes::ALL {
        script.get_bytes(EPHSR, bytes);
    }
}

/// The status word of the chosen packet.
fn look_at_status(script: &mut Script) {
    script.put(POINTER, Pointer::AUTO_INCREMENT | Pointer::READ);
    script.get(DATA);
}
