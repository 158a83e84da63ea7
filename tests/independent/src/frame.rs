//! "A frame arrives".

use std::ops::Range;

use crate::address::MacAddress;
use crate::chip::{control, rcr, ChipOn};
use crate::crc::{self, FCS_SIZE};
use crate::memory::{Layout, PAGE_SIZE};
use crate::refusal::Refusal;

/// "Under 18 bytes: refusal 11."
const LEAST: usize = 18;
/// "under 64 bytes": short.
const SHORT_BELOW: usize = 64;
/// "frame with FCS over 1,518 bytes": status bit 11.
const LONG_ABOVE: usize = 1_518;
/// "1,532 decides": above it nothing is stored.
const MOST: usize = 1_532;
/// Status and byte count.
const HEADER: usize = 4;
/// The last byte behind a frame, "for even n a zero and 40h, for odd n 60h".
const LAST_OF_EVEN: u8 = 0x40;
const LAST_OF_ODD: u8 = 0x60;
/// The longest header, frame and trailer.
const LONGEST_IMAGE: usize = HEADER + MOST + 2;

/// Bits of the status word stored before the frame.
mod status {
    pub const GROUP: u16 = 1 << 0;
    pub const HASH_SHIFT: u16 = 1;
    pub const SHORT: u16 = 1 << 10;
    pub const LONG: u16 = 1 << 11;
    pub const ODD: u16 = 1 << 12;
    pub const BAD_CRC: u16 = 1 << 13;
    pub const BROADCAST: u16 = 1 << 14;
    pub const ALIGNMENT: u16 = 1 << 15;
}

/// A frame's bytes with FCS, and what is wrong with them.
#[derive(Clone, Copy, Debug)]
struct Arriving<'a> {
    bytes: &'a [u8],
    /// The one flag that is given.
    alignment: bool,
    /// "no longer given but found from the frame", "whatever the alignment
    /// flag says".
    bad_crc: bool,
}

impl<'a> Arriving<'a> {
    fn new(bytes: &'a [u8], alignment: bool) -> Self {
        Self {
            bytes,
            alignment,
            bad_crc: crc::is_bad(bytes),
        }
    }

    fn len(self) -> usize {
        self.bytes.len()
    }

    fn destination(self) -> MacAddress {
        MacAddress::leading(self.bytes)
    }

    /// "flagged or under 64 bytes".
    fn is_damaged(self) -> bool {
        self.bad_crc || self.alignment || self.len() < SHORT_BELOW
    }
}

/// A frame's fate: the value of its answer.
#[derive(Clone, Copy, Debug, PartialEq, Eq)]
#[repr(u16)]
pub enum Arrival {
    Stored = 0,
    ReceiverOff = 1,
    NotForUs = 2,
    TooLong = 3,
    Damaged = 4,
    NoRoom = 5,
}

/// "The count is n + 6 (even) or n + 5 (odd)."
pub fn byte_count(n: usize) -> usize {
    if n.is_multiple_of(2) {
        n + 6
    } else {
        n + 5
    }
}

/// Pages that a stored frame of n bytes needs.
pub fn pages_needed(n: usize) -> usize {
    byte_count(n).div_ceil(PAGE_SIZE)
}

impl<L: Layout> ChipOn<L> {
    /// `bytes` are those with FCS.
    pub fn arrive(&mut self, bytes: &[u8], alignment: bool) -> Result<Arrival, Refusal> {
        if bytes.len() < LEAST {
            return Err(Refusal::OutsideLimits);
        }
        let frame = Arriving::new(bytes, alignment);
        let fate = self.judge_frame(frame);
        match fate {
            Arrival::Stored => self.store_frame(frame),
            Arrival::TooLong => self.registers.rcr |= rcr::RX_ABORT,
            Arrival::NoRoom => {
                self.registers.rcr |= rcr::RX_ABORT;
                self.registers.rx_overrun = true;
            }
            Arrival::ReceiverOff | Arrival::NotForUs | Arrival::Damaged => {}
        }
        Ok(fate)
    }

    /// "The answer's value is the first that holds".
    fn judge_frame(&self, frame: Arriving) -> Arrival {
        if self.registers.rcr & rcr::RXEN == 0 {
            Arrival::ReceiverOff
        } else if !self.accepts(frame.destination()) {
            Arrival::NotForUs
        } else if frame.len() > MOST {
            Arrival::TooLong
        } else if frame.is_damaged() && self.registers.control & control::RECEIVE_BAD == 0 {
            Arrival::Damaged
        } else if !self.has_room(pages_needed(self.stored_length(frame))) {
            Arrival::NoRoom
        } else {
            Arrival::Stored
        }
    }

    /// "Accepted: RCR bit 1 (all); broadcast; group address with RCR bit 2, or
    /// with its table bit set; the station address."
    fn accepts(&self, destination: MacAddress) -> bool {
        let now = &self.registers;
        let group =
            || now.rcr & rcr::ALL_MULTICAST != 0 || destination.hash().is_set_in(&now.multicast);
        now.rcr & rcr::PROMISCUOUS != 0
            || destination.is_broadcast()
            || destination == now.station
            || destination.is_group() && group()
    }

    /// Not "free pages less those needed are below the reserved number". A
    /// request that waits keeps no page from a frame.
    fn has_room(&self, needed: usize) -> bool {
        self.packets.free_pages() >= needed + usize::from(self.registers.reserved)
    }

    /// "n is the length, less 4 when RCR bit 9 is set."
    fn stored_length(&self, frame: Arriving) -> usize {
        if self.registers.rcr & rcr::STRIP_CRC != 0 {
            frame.len() - FCS_SIZE
        } else {
            frame.len()
        }
    }

    /// "status, byte count, n bytes, then for even n a zero and 40h, for odd n
    /// 60h"; "the allocation result stays".
    fn store_frame(&mut self, frame: Arriving) {
        let n = self.stored_length(frame);
        let count = byte_count(n);
        let Some(packet) = self.packets.grant(pages_needed(n)) else {
            return; // has_room said otherwise
        };
        let mut image = [0; LONGEST_IMAGE];
        image[0..2].copy_from_slice(&frame_status(frame, n).to_le_bytes());
        image[2..4].copy_from_slice(&(count as u16).to_le_bytes());
        image[HEADER..HEADER + n].copy_from_slice(&frame.bytes[..n]);
        image[count - 1] = match n % 2 {
            0 => LAST_OF_EVEN,
            _ => LAST_OF_ODD,
        };
        self.packets.fill(packet, &image[..count]);
        self.rx.push(packet);
    }
}

/// Where the n bytes stand in a frame as it is stored.
pub fn bytes_in(image: &[u8]) -> Range<usize> {
    let behind = match image.last() {
        Some(&LAST_OF_ODD) => 1,
        _ => 2,
    };
    HEADER..image.len() - behind
}

/// "Status: 15 alignment, 14 broadcast, 13 bad CRC, 12 odd n, 11 frame with FCS
/// over 1,518 bytes, 10 under 64; group but not broadcast: bit 0, hash in 6 to 1."
fn frame_status(frame: Arriving, n: usize) -> u16 {
    let destination = frame.destination();
    let bits = [
        (frame.alignment, status::ALIGNMENT),
        (destination.is_broadcast(), status::BROADCAST),
        (frame.bad_crc, status::BAD_CRC),
        (n % 2 == 1, status::ODD),
        (frame.len() > LONG_ABOVE, status::LONG),
        (frame.len() < SHORT_BELOW, status::SHORT),
    ];
    let named = bits
        .iter()
        .filter(|(up, _)| *up)
        .fold(0, |word, (_, bit)| word | bit);
    named | group_bits(destination)
}

fn group_bits(destination: MacAddress) -> u16 {
    if destination.is_group() && !destination.is_broadcast() {
        status::GROUP | u16::from(destination.hash().get()) << status::HASH_SHIFT
    } else {
        0
    }
}
