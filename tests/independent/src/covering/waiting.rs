//! An allocation that waits: what grants it, what leaves it, what drops it.

use super::script::{Bytes, Script};
use crate::address::MacAddress;
use crate::chip::{control, rcr};
use crate::places::*;

/// Receives broadcasts of any length, and may send.
fn set_up(script: &mut Script, bits: u16) {
    script.put(CONTROL, control::RECEIVE_BAD | bits);
    script.put(RCR, rcr::RXEN);
    script.enable(0);
}

/// Where a wait and a grant show.
fn look(script: &mut Script) {
    script.get(PACKET);
    script.get(INTERRUPT);
}

/// A frame of one page.
fn short_frame(script: &mut Script) {
    script.frame(MacAddress::BROADCAST, 18, 0);
}

/// A packet of one page or more, ready to be sent.
fn loaded(script: &mut Script, pages: u8) -> u8 {
    let packet = script.allocate(pages);
    script.choose(packet);
    script.load(2, &[12]);
    packet
}

/// What gives pages back.
#[derive(Clone, Copy, Debug, PartialEq, Eq)]
pub enum Giver {
    Release,
    RemoveAndRelease,
    Send,
}

impl Giver {
    /// A packet of one page or two that is given back in its turn.
    fn prepare(self, script: &mut Script, pages: u8) -> u8 {
        match self {
            Self::Release => script.allocate(pages),
            Self::RemoveAndRelease => {
                let length = if pages == 1 { 18 } else { 252 };
                script.frame(MacAddress::BROADCAST, length, 0);
                63 // 80h names no packet
            }
            Self::Send => {
                let packet = loaded(script, pages);
                script.enqueue(packet);
                packet
            }
        }
    }

    fn give(self, script: &mut Script, packet: u8) {
        match self {
            Self::Release => script.release(packet),
            Self::RemoveAndRelease => script.command(RELEASE_RX),
            Self::Send => script.send(0, 0, 0),
        }
        look(script);
        script.get(MIR);
    }
}

/// "be that a release command, remove-and-release or a good send with auto
/// release".
pub fn granted(script: &mut Script, giver: Giver) {
    set_up(script, control::AUTO_RELEASE);
    script.allocate(8); // so that no later number is its page's
    let [one, two, three, four, five] = [1, 2, 1, 1, 1].map(|pages| giver.prepare(script, pages));
    script.allocate(8);
    script.allocate(2);
    script.allocate(1);
    look(script);
    script.get(MIR);
    giver.give(script, one); // page 8, to packet 1
    script.put(RESERVED, 24);
    script.allocate(1);
    giver.give(script, two); // page 9, to packet 2; page 10 is left
    script.put(RESERVED, 0);
    script.release(1);
    script.allocate(3);
    giver.give(script, three); // pages 8, 10 and 11, to packet 1
    script.release(2);
    script.allocate(2);
    short_frame(script); // overtakes: page 9
    giver.give(script, four);
    giver.give(script, five); // pages 12 and 13, to packet 3
    use_granted(script);
}

/// The packet in the result is loaded and sent.
fn use_granted(script: &mut Script) {
    let granted = script.chip().registers.result;
    script.choose(granted.map_or(63, |packet| packet.get()));
    script.load(2, &[14, 0xabcd]);
    script.command(ENQUEUE);
    script.send(0, 0, 0);
    look(script);
}

/// Requests of every size, each granted out of eight pages.
pub fn sizes(script: &mut Script) {
    for pages in 1..=8 {
        for _ in 0..3 {
            script.allocate(8);
        }
        script.allocate(pages);
        look(script);
        script.release(1);
        look(script);
        script.command(FREE_ALL);
    }
}

/// What leaves a request waiting. Before them one page is free, and a packet
/// of one page, loaded, is in no queue.
const MEETINGS: [fn(&mut Script, u8); 13] = [
    |script, _| script.command(0x00),
    |script, packet| script.enqueue(packet),
    |script, _| script.send(0, 0, 0), // kept, for control bit 11 is clear
    |script, packet| {
        script.enqueue(packet);
        script.send(5, 0, 0);
    },
    |script, packet| {
        script.enqueue(packet);
        script.send(0, 0, 0); // TXENA is clear
    },
    |script, _| script.command(EMPTY_TX),
    |script, packet| {
        script.put(CONTROL, control::AUTO_RELEASE);
        script.enable(0);
        script.enqueue(packet);
        script.send(2, 1, 0); // failed, so not released
        script.put(CONTROL, control::RECEIVE_BAD);
    },
    |script, _| {
        script.command(0x28);
        script.command(RELEASE_RX);
        script.release(23);
    },
    |script, _| script.frame(MacAddress::BROADCAST, 17, 0),
    |script, _| short_frame(script),
    |script, _| short_frame(script), // no room now
    |script, _| script.command(REMOVE_RX),
    |script, _| {
        for pages in [8, 1, 1, 2] {
            script.allocate(pages);
        }
    },
];

/// Each of them, and then a release of two pages, which grants the request.
pub fn meetings(script: &mut Script) {
    set_up(script, 0);
    let packet = loaded(script, 1);
    for pages in [8, 8, 4] {
        script.allocate(pages);
    }
    let mut two = script.allocate(2);
    for meet in MEETINGS {
        script.allocate(2);
        meet(script, packet);
        look(script);
        script.release(two);
        look(script);
        two = script.chip().registers.result.map_or(63, |two| two.get());
    }
    replaced_at_once(script, packet);
}

/// A smaller request that is granted ends the one that waits.
fn replaced_at_once(script: &mut Script, packet: u8) {
    script.release(packet);
    script.allocate(2);
    script.allocate(1);
    look(script);
    script.release(1);
    look(script);
}

/// How a request is dropped: 40h, and a reset by each byte of RCR and by both.
const DROPS: [fn(&mut Script); 4] = [
    |script| script.command(FREE_ALL),
    |script| script.put(RCR, rcr::SOFT_RESET),
    |script| script.put_bytes(RCR, Bytes::High, rcr::SOFT_RESET),
    |script| {
        // a low byte resets only while bit 15 is set
        script.put(RCR, rcr::SOFT_RESET);
        ask_in_vain(script);
        script.put_bytes(RCR, Bytes::Low, 0);
    },
];

/// "40h and a soft reset drop it": no release grants anything then.
pub fn dropped(script: &mut Script) {
    for drop_it in DROPS {
        ask_in_vain(script);
        drop_it(script);
        look(script);
        set_up(script, control::AUTO_RELEASE);
        script.get(MIR);
        for _ in 0..3 {
            short_frame(script);
        }
        script.command(RELEASE_RX);
        script.command(REMOVE_RX);
        script.release(1);
        look(script);
        script.command(REMOVE_RX);
        script.choose(2);
        script.load(2, &[12]);
        script.command(ENQUEUE);
        script.send(0, 0, 0);
        look(script);
    }
}

/// All pages are taken, and two more are asked for.
fn ask_in_vain(script: &mut Script) {
    for _ in 0..3 {
        script.allocate(8);
    }
    script.allocate(2);
    script.get(PACKET);
}
