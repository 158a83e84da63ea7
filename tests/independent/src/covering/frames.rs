//! Frames: every length and value, every address, every way to be stored.

use super::parts;
use super::script::Script;
use super::sends;
use crate::address::MacAddress;
use crate::chip::{control, rcr, Pointer};
use crate::places::*;
use crate::wire::Check;

/// The flag of a frame's end.
const ALIGNMENT: u8 = 2;

const STATION: MacAddress = MacAddress([0x02, 0x13, 0x9a, 0x40, 0xc5, 0xe7]);

fn set_station(script: &mut Script, MacAddress(bytes): MacAddress) {
    for (offset, pair) in [4, 6, 8].into_iter().zip(bytes.chunks_exact(2)) {
        script.put(Place(1, offset), u16::from_le_bytes([pair[0], pair[1]]));
    }
}

fn set_table(script: &mut Script, table: u64) {
    for offset in [0, 2, 4, 6] {
        script.put(Place(3, offset), (table >> (8 * offset)) as u16);
    }
}

/// Receives frames for the station, damaged ones too, with more bits of RCR.
fn set_up(script: &mut Script, bits: u16) {
    set_station(script, STATION);
    script.put(CONTROL, control::RECEIVE_BAD);
    script.put(RCR, rcr::RXEN | bits);
}

/// An address of the kind, with the place in the table that is wanted.
fn address(script: &mut Script, group: bool, hash: u8) -> MacAddress {
    loop {
        let mut bytes = [0; 6];
        bytes.fill_with(|| script.random.byte());
        bytes[0] = bytes[0] & 0xfe | u8::from(group);
        if MacAddress(bytes).hash().get() == hash {
            return MacAddress(bytes);
        }
    }
}

fn one_bit_off(MacAddress(mut bytes): MacAddress, bit: usize) -> MacAddress {
    bytes[bit / 8] ^= 1 << (bit % 8);
    MacAddress(bytes)
}

/// A short frame; what is stored is released at once.
fn knock(script: &mut Script, destination: MacAddress) {
    script.frame(destination, 18, 0);
    if !script.chip().rx.is_empty() {
        look(script);
        script.command(RELEASE_RX);
    }
}

/// "Accepted: RCR bit 1 (all); broadcast; group address with RCR bit 2, or with
/// its table bit set; the station address", each by itself.
pub fn accepted(script: &mut Script) {
    set_up(script, 0);
    knock(script, MacAddress::BROADCAST);
    knock(script, STATION);
    for place in 0..8 {
        let hash = 8 * place + (place + 3) % 8;
        set_table(script, 1 << hash);
        let group = address(script, true, hash);
        knock(script, group);
    }
    set_table(script, u64::MAX);
    let group = address(script, true, 5);
    for destination in [group, MacAddress::BROADCAST] {
        knock(script, destination);
    }
    set_table(script, 0);
    for (bits, groups) in [
        (rcr::ALL_MULTICAST, &[true][..]),
        (rcr::PROMISCUOUS, &[true, false]),
    ] {
        script.put(RCR, rcr::RXEN | bits);
        for &group in groups {
            let other = address(script, group, 40);
            knock(script, other);
        }
        knock(script, STATION);
    }
    script.put(RCR, rcr::RXEN);
    set_station(script, group);
    knock(script, group);
}

/// Addresses that come near, and are not accepted.
pub fn not_accepted(script: &mut Script) {
    set_up(script, rcr::ALL_MULTICAST);
    let individual = address(script, false, 17);
    knock(script, individual);
    script.put(RCR, rcr::RXEN);
    set_table(script, 1 << 17);
    knock(script, individual);
    set_table(script, !(1 << 17));
    knock(script, individual);
    let group = address(script, true, 17);
    knock(script, group);
    set_table(script, 0);
    for bit in [0, 1, 7, 8, 23, 40, 47] {
        knock(script, one_bit_off(STATION, bit));
        knock(script, one_bit_off(MacAddress::BROADCAST, bit));
    }
    for hash in [0, 63] {
        let group = address(script, true, hash);
        knock(script, group);
    }
    set_station(script, group);
    knock(script, STATION);
    knock(script, one_bit_off(group, 47));
}

/// A length of each range up to two page borders.
const LENGTHS: [usize; 8] = [18, 63, 64, 65, 66, 250, 261, 506];

/// Stored, with FCS and without, each then read at its ends.
pub fn lengths_stored(script: &mut Script) {
    set_up(script, 0);
    for length in [LENGTHS.as_slice(), &[249, 251, 252]].concat() {
        script.frame(STATION, length, 0);
        look(script);
        script.command(RELEASE_RX);
    }
    script.put(RCR, rcr::RXEN | rcr::STRIP_CRC);
    for length in [18, 67, 68, 254, 255, 256] {
        script.frame(MacAddress::BROADCAST, length, 0);
        look(script);
        script.command(RELEASE_RX);
    }
}

/// Status and count of the RX head.
fn look(script: &mut Script) {
    script.put(
        POINTER,
        Pointer::RECEIVE | Pointer::AUTO_INCREMENT | Pointer::READ,
    );
    script.get(DATA);
    script.get(DATA);
}

/// Every length with every value but stored.
pub fn lengths_dropped(script: &mut Script) {
    let _ = script.say(&[10, 0x94]); // so that no part is asked for in time
    for length in [1, 12, 17] {
        script.frame(STATION, length, 0);
    }
    let _ = script.say(&[6, 0]);
    set_up(script, 0);
    script.frame(STATION, 17, 0);
    parts::ask_again(script);
    let _ = script.say(&[0, 1]);
    let _ = script.say(&[255, 1]);
    for length in LENGTHS {
        script.put(RCR, 0);
        script.frame(STATION, length, 0);
        script.put(RCR, rcr::RXEN);
        script.frame(one_bit_off(STATION, 30), length, 0);
        if length < 130 {
            script.put(CONTROL, 0);
            script.checked_frame(STATION, length, Check::Any, 0);
            script.put(CONTROL, control::RECEIVE_BAD);
        }
        script.put(RESERVED, 24);
        script.frame(STATION, length, 0);
        script.put(RESERVED, 0);
    }
    script.put(CONTROL, 0);
    script.frame(STATION, 63, 0);
    script.frame(STATION, 64, ALIGNMENT);
    script.checked_frame(STATION, 64, Check::Any, ALIGNMENT);
    script.frame(STATION, 64, 0xfc);
}

/// "The answer's value is the first that holds": all later ones hold too.
pub fn values_at_once(script: &mut Script) {
    set_station(script, STATION);
    script.put(RESERVED, 24);
    let other = one_bit_off(STATION, 3);
    script.checked_frame(other, 1_533, Check::Any, 0);
    script.put(RCR, rcr::RXEN);
    script.checked_frame(other, 1_533, Check::Any, 0);
    script.checked_frame(STATION, 64, Check::Any, 0);
    script.get(RCR);
    script.checked_frame(STATION, 1_600, Check::Any, 0);
    script.get(RCR);
    script.get(INTERRUPT);
}

/// Each status bit alone and with others, the room, the bytes that stay.
pub fn stored(script: &mut Script) {
    set_up(script, 0);
    let group = address(script, true, 43);
    set_table(script, 1 << 43);
    let frames = [
        (STATION, 64, Check::Right, 0),
        (STATION, 64, Check::Right, ALIGNMENT),
        (STATION, 64, Check::Any, 0),
        (STATION, 65, Check::Right, 0),
        (STATION, 62, Check::Right, 0),
        (MacAddress::BROADCAST, 64, Check::Right, 0),
        (group, 64, Check::Right, 0),
        (group, 63, Check::Any, ALIGNMENT),
        (MacAddress::BROADCAST, 63, Check::Any, 0),
    ];
    for (destination, length, check, flags) in frames {
        script.checked_frame(destination, length, check, flags);
    }
    for _ in frames {
        look(script);
        script.command(RELEASE_RX);
    }
    // over bytes that were there before
    script.put(RESERVED, 1);
    script.frame(STATION, 20, 0);
    room(script);
}

/// "free pages less those needed are below the reserved number", either side.
fn room(script: &mut Script) {
    for pages in [8, 8, 6] {
        script.allocate(pages);
    }
    script.frame(STATION, 64, 0);
    script.get(RCR);
    script.command(RELEASE_RX);
    script.frame(STATION, 64, 0);
    script.frame(STATION, 64, 0);
    script.get(RCR);
    script.get(INTERRUPT);
    script.frame(STATION, 64, 0);
    script.put(RESERVED, 0);
    script.frame(STATION, 64, 0);
    script.get(MIR);
}

/// Frames over pages that are not adjacent, sent on from there.
pub fn in_pieces(script: &mut Script) {
    set_up(script, 0);
    script.enable(0);
    sends::make_gaps(script);
    script.frame(STATION, 770, 0);
    script.command(REMOVE_RX);
    script.enqueue(0);
    script.send(0, 0, 0);
    script.release(0);
    for length in [256, 516] {
        script.frame(STATION, length, 0);
        script.command(RELEASE_RX);
    }
}

/// A long frame that is stored.
pub fn long(script: &mut Script, length: usize) {
    set_up(script, 0);
    script.frame(STATION, length, 0);
    look(script);
}

/// Too long by one, and as long as wire bytes can gather.
pub fn too_long(script: &mut Script) {
    set_up(script, 0);
    for count in [0, 7, 8, 255] {
        let _ = script.say(&[5, count]);
    }
    for count in 1..6 {
        let _ = script.say(&[5, count]);
    }
    let _ = script.say(&[6, 0]);
    script.frame(STATION, 1_533, 0);
    script.get(RCR);
    script.get(INTERRUPT);
    script.gather(STATION, 2_046, Check::Any);
    let _ = script.say(&[5, 3]);
    let _ = script.say(&[5, 2]);
    for count in 1..=6 {
        let _ = script.say(&[5, count]);
    }
    let _ = script.say(&[6, 0]);
    for _ in 0..9 {
        script.frame(STATION, 18, 0);
    }
    script.get(HEADS);
}
