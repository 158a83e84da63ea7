//! The frame check sequence: frames that have it right and wrong in every way,
//! and sends that append it or not.

use super::script::Script;
use super::sends::{self, CRC, ODD};
use crate::address::MacAddress;
use crate::chip::{control, rcr, tcr};
use crate::places::*;
use crate::wire::Check;

/// Each way in which the FCS of a frame of 64 bytes is wrong.
const WRONG: [Check; 14] = [
    Check::Any,
    Check::NotComplemented,
    Check::OtherOrder,
    Check::OtherBits,
    Check::Cut(1),
    Check::Cut(2),
    Check::Cut(3),
    Check::Changed(0, 0x02),
    Check::Changed(30, 0xa5),
    Check::Changed(59, 0x80),
    Check::Changed(60, 0x01),
    Check::Changed(61, 0x10),
    Check::Changed(62, 0x40),
    Check::Changed(63, 0x80),
];

/// Receives every frame, and those that are damaged or not.
fn receive(script: &mut Script, control: u16, bits: u16) {
    script.put(CONTROL, control);
    script.put(RCR, rcr::RXEN | rcr::PROMISCUOUS | bits);
}

/// A frame to a station; what is stored is released at once.
fn knock(script: &mut Script, length: usize, check: Check, flags: u8) {
    let destination = MacAddress([0x02, 0x68, 0x10, 0xf3, 0x9c, 0x55]);
    script.checked_frame(destination, length, check, flags);
    if !script.chip().rx.is_empty() {
        script.command(RELEASE_RX);
    }
}

/// "the bad CRC flag is no longer given but found from the frame".
pub fn found(script: &mut Script, control: u16) {
    receive(script, control, 0);
    knock(script, 64, Check::Right, 0);
    for check in WRONG {
        knock(script, 64, check, 0);
    }
}

/// Right and wrong beside all else that damages a frame: "judged whatever the
/// alignment flag says"; "bit 0 of record kind 6 ignored".
pub fn beside(script: &mut Script) {
    for control in [0, control::RECEIVE_BAD] {
        receive(script, control, 0);
        for (length, check) in [18, 64]
            .into_iter()
            .flat_map(|length| [(length, Check::Right), (length, Check::Any)])
        {
            for flags in [0, 1, 2, 3] {
                knock(script, length, check, flags);
            }
        }
    }
}

/// Stored without the FCS that was judged, and without room.
pub fn stripped(script: &mut Script) {
    receive(script, control::RECEIVE_BAD, rcr::STRIP_CRC);
    for check in [Check::Right, Check::Any] {
        knock(script, 68, check, 0);
    }
    script.put(RESERVED, 24);
    for (check, flags) in [(Check::Right, 0), (Check::Right, 2), (Check::Any, 0)] {
        knock(script, 20, check, flags);
    }
    knock(script, 20, Check::Any, 2);
    receive(script, 0, 0);
    knock(script, 64, Check::Right, 0);
}

/// TCR's bits, the control byte's, and the data's length either side of 60 and
/// of 64: what is appended, and what is padded.
pub fn appended(script: &mut Script, pad: u16) {
    sends::set_up(script);
    let packet = script.filled(80);
    script.choose(packet);
    for (nocrc, crc) in [(0, 0), (0, CRC), (tcr::NOCRC, 0), (tcr::NOCRC, CRC)] {
        for (count, odd) in [12, 64, 66, 68, 70]
            .into_iter()
            .flat_map(|count| [(count, 0), (count, ODD)])
        {
            script.enable(pad | nocrc);
            sends::set_count(script, count, odd | crc);
            sends::send_chosen(script, if count == 64 { 5 } else { 0 });
        }
    }
}

/// What a send puts out comes back: stored where it has its FCS, or where
/// damaged frames are.
pub fn echoed(script: &mut Script) {
    sends::set_up(script);
    let packet = script.filled(18);
    script.choose(packet);
    sends::set_count(script, 20, 0);
    let turns = [
        (tcr::PAD_EN, 64, 0),
        (tcr::PAD_EN | tcr::NOCRC, 64, 0),
        (0, 18, 0), // under 64 bytes
        (tcr::PAD_EN | tcr::NOCRC, 64, control::RECEIVE_BAD),
    ];
    for (bits, length, control) in turns {
        receive(script, control, 0);
        script.enable(bits);
        sends::send_chosen(script, 0);
        script.echo(length);
        script.get(HEADS);
    }
    script.put(CONTROL, control::AUTO_RELEASE);
    script.enable(tcr::NOCRC);
    sends::send_chosen(script, 0);
}
