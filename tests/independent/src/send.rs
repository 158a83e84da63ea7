//! "A send finishes".

use crate::address::MacAddress;
use crate::chip::{control, ephsr, tcr, ChipOn};
use crate::crc::{self, FCS_SIZE};
use crate::memory::{Layout, PacketAddress, PacketNumber};
use crate::refusal::Refusal;

/// "output buffer 2,052 bytes".
pub const OUTPUT_SIZE: usize = 2_052;
/// "With TCR bit 7 shorter data is padded by zeros": "padding goes to 60 before
/// an FCS, or to 64 without one".
const PADDED_BEFORE_FCS: usize = 60;
const PADDED_WITHOUT_FCS: usize = 64;
/// "must be even, at least 12, within the pages".
const LEAST_COUNT: u16 = 12;
const STATUS_AT: PacketAddress = PacketAddress(0);
const COUNT_AT: PacketAddress = PacketAddress(2);
const DATA_AT: PacketAddress = PacketAddress(4);
/// "if bit 5 of the byte at c − 1 is set": the data is odd.
const CONTROL_ODD: u8 = 1 << 5;
/// "bit 4 of the packet's control byte": an FCS even with NOCRC.
const CONTROL_CRC: u8 = 1 << 4;

#[derive(Clone, Copy, Debug, PartialEq, Eq)]
pub enum Outcome {
    Good,
    SixteenCollisions,
    LateCollision,
    LostCarrier,
    SqeMissing,
    Underrun,
}

#[derive(Clone, Copy, Debug, PartialEq, Eq)]
pub enum Deferral {
    None,
    Deferred,
    Excessive,
}

/// How the wire ended a send, within the paper's limits.
#[derive(Clone, Copy, Debug, PartialEq, Eq)]
pub struct SendEnd {
    outcome: Outcome,
    collisions: u8,
    deferral: Deferral,
}

impl SendEnd {
    /// "outcome (0 good, ...), collisions (16 with outcome 1, else 0 to 15),
    /// deferral (0, 1 deferred, 2 excessive)"; else 11.
    pub fn new(outcome: u8, collisions: u8, deferral: u8) -> Result<Self, Refusal> {
        let outcome = match (outcome, collisions) {
            (0, 0..=15) => Outcome::Good,
            (1, 16) => Outcome::SixteenCollisions,
            (2, 0..=15) => Outcome::LateCollision,
            (3, 0..=15) => Outcome::LostCarrier,
            (4, 0..=15) => Outcome::SqeMissing,
            (5, 0..=15) => Outcome::Underrun,
            _ => return Err(Refusal::OutsideLimits),
        };
        let deferral = match deferral {
            0 => Deferral::None,
            1 => Deferral::Deferred,
            2 => Deferral::Excessive,
            _ => return Err(Refusal::OutsideLimits),
        };
        Ok(Self {
            outcome,
            collisions,
            deferral,
        })
    }

    /// "on failure bit 1 for one collision, 2 for more".
    fn collision_bits(self) -> u16 {
        match self.collisions {
            0 => 0,
            1 => ephsr::SINGLE_COLLISION,
            _ => ephsr::MULTIPLE_COLLISIONS,
        }
    }
}

/// How a send counts, with the EPHSR bits that say so.
#[derive(Clone, Copy, Debug, PartialEq, Eq)]
enum Verdict {
    Good(u16),
    Failed(u16),
}

impl Verdict {
    /// "Outcome 3 is good unless TCR bit 10 is set and bit 15 clear; 4 is good
    /// with EPHSR bit 5 also set, unless TCR bit 12 is set."
    fn new(outcome: Outcome, tcr: u16) -> Self {
        let monitors = tcr & tcr::MON_CSN != 0 && tcr & tcr::FDSE == 0;
        let stops = tcr & tcr::STP_SQET != 0;
        match outcome {
            Outcome::Good => Self::Good(ephsr::TX_SUC),
            Outcome::SixteenCollisions => Self::Failed(ephsr::SIXTEEN_COLLISIONS),
            Outcome::LateCollision => Self::Failed(ephsr::LATE_COLLISION),
            Outcome::LostCarrier if monitors => Self::Failed(ephsr::LOST_CARRIER),
            Outcome::LostCarrier => Self::Good(ephsr::TX_SUC),
            Outcome::SqeMissing if stops => Self::Failed(ephsr::SQET),
            Outcome::SqeMissing => Self::Good(ephsr::TX_SUC | ephsr::SQET),
            Outcome::Underrun => Self::Failed(ephsr::UNDERRUN),
        }
    }

    fn is_good(self) -> bool {
        matches!(self, Self::Good(_))
    }
}

/// A send that nothing stands against.
#[derive(Clone, Copy, Debug)]
struct Due {
    packet: PacketNumber,
    /// How many bytes of data.
    data: usize,
    /// "A send appends four FCS bytes".
    appends_fcs: bool,
    verdict: Verdict,
    /// "Good with control bit 11: the packet is released."
    releases: bool,
}

/// "ECR nibbles, lowest first".
#[derive(Clone, Copy, Debug)]
enum Counter {
    SingleCollision = 0,
    MultipleCollisions = 4,
    Deferred = 8,
    ExcessiveDeferral = 12,
}

/// "They stop at 15".
fn count(ecr: u16, counter: Counter) -> u16 {
    let shift = counter as u16;
    if ecr >> shift & 0xf == 0xf {
        ecr
    } else {
        ecr + (1 << shift)
    }
}

/// ECR after a send: "good after one collision; two or more, failed or good;
/// deferral 1; deferral 2".
fn count_send(ecr: u16, end: SendEnd, good: bool) -> u16 {
    let collisions = match end.collisions {
        1 if good => Some(Counter::SingleCollision),
        2.. => Some(Counter::MultipleCollisions),
        _ => None,
    };
    let deferral = match end.deferral {
        Deferral::None => None,
        Deferral::Deferred => Some(Counter::Deferred),
        Deferral::Excessive => Some(Counter::ExcessiveDeferral),
    };
    collisions.into_iter().chain(deferral).fold(ecr, count)
}

/// "any then at 15".
fn any_counter_full(ecr: u16) -> bool {
    (0..4).any(|nibble| ecr >> (4 * nibble) & 0xf == 0xf)
}

/// "bit 6 broadcast, else 3 group address".
fn destination_bits(destination: MacAddress) -> u16 {
    if destination.is_broadcast() {
        ephsr::LAST_BROADCAST
    } else if destination.is_group() {
        ephsr::LAST_GROUP
    } else {
        0
    }
}

impl<L: Layout> ChipOn<L> {
    /// Ends the send of the TX head; "The value is the length put out; all
    /// other output bytes stay, and failed sends put out the same bytes."
    pub fn send(&mut self, end: SendEnd, output: &mut [u8; OUTPUT_SIZE]) -> Result<u16, Refusal> {
        let due = self.due(end)?;
        let length = self.put_out(due, output);
        self.note_end(end, due.verdict, MacAddress::leading(output));
        self.write_status(due.packet); // before its pages can be granted anew
        self.tx.pop();
        if due.releases {
            self.give_back(due.packet);
        } else {
            self.completion.push(due.packet);
        }
        // "TX EMPTY is set if TX is now empty."
        self.registers.tx_empty |= self.tx.is_empty();
        Ok(length as u16)
    }

    /// The TX head, for which 12 does not hold: "TXENA clear, or TX FIFO empty".
    pub fn head_to_send(&self) -> Result<PacketNumber, Refusal> {
        if self.registers.tcr & tcr::TXENA == 0 {
            return Err(Refusal::NothingToSend);
        }
        self.tx.head().ok_or(Refusal::NothingToSend)
    }

    /// How many bytes of data a send that is done puts out.
    pub fn data_to_send(&self, end: SendEnd) -> Result<usize, Refusal> {
        self.due(end).map(|due| due.data)
    }

    /// The send of the TX head, or why it is refused: "12, 13, 18, 19, 14".
    fn due(&self, end: SendEnd) -> Result<Due, Refusal> {
        let packet = self.head_to_send()?;
        let data = self.data_length(packet)?;
        let verdict = Verdict::new(end.outcome, self.registers.tcr);
        let releases = verdict.is_good() && self.registers.control & control::AUTO_RELEASE != 0;
        if !releases && self.completion.is_full() {
            return Err(Refusal::CompletionFull);
        }
        Ok(Due {
            packet,
            data,
            appends_fcs: self.appends_fcs(packet),
            verdict,
            releases,
        })
    }

    /// "Data: from 4, c − 5 bytes if bit 5 of the byte at c − 1 is set, else c − 6."
    pub fn data_length(&self, packet: PacketNumber) -> Result<usize, Refusal> {
        if let Some(fault) = self.count_faults(packet).next() {
            return Err(fault);
        }
        let odd = self.control_byte(packet) & CONTROL_ODD != 0;
        let around = if odd { 5 } else { 6 };
        Ok(usize::from(self.byte_count(packet)) - around)
    }

    /// "the byte at c − 1", of a count that is usable.
    pub fn control_byte(&self, packet: PacketNumber) -> u8 {
        let count = self.byte_count(packet);
        self.packets.byte(packet, PacketAddress(count - 1))
    }

    /// "unless TCR bit 8 (NOCRC) is set and bit 4 of the packet's control byte
    /// is clear", of a count that is usable.
    pub fn appends_fcs(&self, packet: PacketNumber) -> bool {
        let asked = self.control_byte(packet) & CONTROL_CRC != 0;
        asked || self.registers.tcr & tcr::NOCRC == 0
    }

    /// Up to where TCR bit 7 pads: "60 before an FCS, or .. 64 without one".
    pub fn padded_length(&self, packet: PacketNumber) -> usize {
        match self.appends_fcs(packet) {
            true => PADDED_BEFORE_FCS,
            false => PADDED_WITHOUT_FCS,
        }
    }

    /// "Count c at addresses 2 and 3, low byte first", usable or not.
    pub fn byte_count(&self, packet: PacketNumber) -> u16 {
        self.packets.word(packet, COUNT_AT)
    }

    /// All that is wrong with it: "13 odd, 18 under 12, 19 past the pages; in
    /// that order".
    pub fn count_faults(&self, packet: PacketNumber) -> impl Iterator<Item = Refusal> {
        let count = self.byte_count(packet);
        let past = usize::from(count) > self.packets.size(packet);
        let faults = [
            (Refusal::OddCount(count), count % 2 == 1),
            (Refusal::ShortCount(count), count < LEAST_COUNT),
            (Refusal::LongCount(count), past),
        ];
        faults
            .into_iter()
            .filter_map(|(fault, holds)| holds.then_some(fault))
    }

    /// Copies the data out, padded if TCR says so, the FCS of all that behind
    /// it, and gives the length.
    fn put_out(&self, due: Due, output: &mut [u8; OUTPUT_SIZE]) -> usize {
        let (data, packet) = (due.data, due.packet);
        self.packets.copy_out(packet, DATA_AT, &mut output[..data]);
        let padded = match self.registers.tcr & tcr::PAD_EN {
            0 => data,
            _ => data.max(self.padded_length(packet)),
        };
        output[data..padded].fill(0);
        if !due.appends_fcs {
            return padded;
        }
        let (before, behind) = output.split_at_mut(padded);
        behind[..FCS_SIZE].copy_from_slice(&crc::fcs(before));
        padded + FCS_SIZE
    }

    /// Brings ECR, EPHSR and TXENA to what the send's end makes of them.
    fn note_end(&mut self, end: SendEnd, verdict: Verdict, destination: MacAddress) {
        let now = &mut self.registers;
        now.ecr = count_send(now.ecr, end, verdict.is_good());
        let ended = match verdict {
            Verdict::Good(bits) => bits,
            Verdict::Failed(bits) => {
                // "A failure clears TXENA."
                now.tcr &= !tcr::TXENA;
                bits | end.collision_bits()
            }
        };
        // "EPHSR bits other than 12 become: ..."
        now.ephsr = now.ephsr & ephsr::COUNTER_ROLL | ended | destination_bits(destination);
        if any_counter_full(now.ecr) {
            now.ephsr |= ephsr::COUNTER_ROLL;
        }
    }

    /// "EPHSR is written to addresses 0 and 1", with the link in bit 14.
    fn write_status(&mut self, packet: PacketNumber) {
        self.packets
            .set_word(packet, STATUS_AT, self.registers.shown_ephsr());
    }
}
