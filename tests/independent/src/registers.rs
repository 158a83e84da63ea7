//! Accesses: the register map, and what reading and writing each register does.

use crate::chip::{ephsr, interrupt, rcr, tcr, ChipOn, Pointer};
use crate::memory::{Layout, PacketAddress, PacketNumber};
use crate::refusal::Refusal;

/// What reads as nothing in particular: byte F, B of bank 0, banks 5 to 7.
const FILLER: u8 = 0x33;

#[derive(Clone, Copy, Debug, PartialEq, Eq)]
pub enum Width {
    Byte,
    Word,
}

impl Width {
    pub fn bytes(self) -> u16 {
        match self {
            Self::Byte => 1,
            Self::Word => 2,
        }
    }
}

/// A word of the register map: "Low byte at the even offset."
#[derive(Clone, Copy, Debug, PartialEq, Eq)]
enum Register {
    Tcr,
    Ephsr,
    Rcr,
    Ecr,
    /// Memory information: size and free pages.
    Mir,
    Reserved,
    /// Two bytes of the station address, from this one on.
    Station(usize),
    Control,
    Command,
    /// Packet number below, allocation result above.
    Packet,
    /// Head of completion below, head of RX above.
    Heads,
    Pointer,
    Data,
    /// Status and acknowledge below, mask above.
    Interrupt,
    /// Two bytes of the multicast table, from this one on.
    Multicast(usize),
    Bank,
    /// Banks 5 to 7: "writes are ignored".
    Empty,
}

impl Register {
    /// The register whose word holds `offset`; no word mixes a modelled byte
    /// with one that is not.
    fn decode(bank: u8, offset: u8) -> Result<Self, Refusal> {
        let even = offset & !1;
        Ok(match (bank, even) {
            (_, 0xe) => Self::Bank,
            (0, 0x0) => Self::Tcr,
            (0, 0x2) => Self::Ephsr,
            (0, 0x4) => Self::Rcr,
            (0, 0x6) => Self::Ecr,
            (0, 0x8) => Self::Mir,
            (0, 0xa) => Self::Reserved,
            (1, 0x4..=0x9) => Self::Station(usize::from(even - 4)),
            (1, 0xc) => Self::Control,
            (2, 0x0) => Self::Command,
            (2, 0x2) => Self::Packet,
            (2, 0x4) => Self::Heads,
            (2, 0x6) => Self::Pointer,
            (2, 0x8 | 0xa) => Self::Data,
            (2, 0xc) => Self::Interrupt,
            (3, 0x0..=0x7) => Self::Multicast(usize::from(even)),
            (5..=7, _) => Self::Empty,
            _ => return Err(Refusal::NotModelled),
        })
    }

    /// Which halves a write may reach, low and high.
    fn writable(self) -> (bool, bool) {
        match self {
            Self::Ephsr | Self::Ecr | Self::Mir | Self::Heads => (false, false),
            Self::Reserved | Self::Command | Self::Packet | Self::Bank => (true, false),
            _ => (true, true),
        }
    }
}

/// The bytes that a write brings to a register's two halves.
#[derive(Clone, Copy, Debug)]
struct Lanes {
    low: Option<u8>,
    high: Option<u8>,
}

impl Lanes {
    fn new(width: Width, offset: u8, value: u16) -> Self {
        let [low, high] = value.to_le_bytes();
        match (width, offset % 2) {
            (Width::Word, _) => Self {
                low: Some(low),
                high: Some(high),
            },
            (Width::Byte, 0) => Self {
                low: Some(low),
                high: None,
            },
            (Width::Byte, _) => Self {
                low: None,
                high: Some(low),
            },
        }
    }

    /// "a word write skips its read-only half"; 3 when nothing is left.
    #[inline] // for every write comes here
    fn onto(self, register: Register) -> Result<Self, Refusal> {
        let (low, high) = register.writable();
        let lanes = Self {
            low: self.low.filter(|_| low),
            high: self.high.filter(|_| high),
        };
        if lanes.low.is_none() && lanes.high.is_none() {
            return Err(Refusal::ReadOnly);
        }
        Ok(lanes)
    }

    /// "A byte write changes that byte only".
    fn merge(self, old: u16) -> u16 {
        let [low, high] = old.to_le_bytes();
        u16::from_le_bytes([self.low.unwrap_or(low), self.high.unwrap_or(high)])
    }

    fn merge_pair(self, pair: &mut [u8]) {
        if let Some(low) = self.low {
            pair[0] = low;
        }
        if let Some(high) = self.high {
            pair[1] = high;
        }
    }
}

/// Refusal 1: "offset above 15, or a word at an odd offset".
fn check_offset(width: Width, offset: u8) -> Result<(), Refusal> {
    if offset > 15 || (width == Width::Word && offset % 2 == 1) {
        return Err(Refusal::BadOffset);
    }
    Ok(())
}

impl<L: Layout> ChipOn<L> {
    /// A register read; a byte comes back in the low half.
    pub fn read(&mut self, width: Width, offset: u8) -> Result<u16, Refusal> {
        check_offset(width, offset)?;
        let register = Register::decode(self.registers.bank, offset)?;
        if register == Register::Data {
            return self.read_data(width);
        }
        let word = self.peek(register);
        if register == Register::Ecr {
            self.clear_counters();
        }
        Ok(match (width, offset % 2) {
            (Width::Word, _) => word,
            (Width::Byte, 0) => word & 0xff,
            (Width::Byte, _) => word >> 8,
        })
    }

    /// A register write; a byte write takes the value's low byte.
    pub fn write(&mut self, width: Width, offset: u8, value: u16) -> Result<(), Refusal> {
        check_offset(width, offset)?;
        let register = Register::decode(self.registers.bank, offset)?;
        let lanes = Lanes::new(width, offset, value).onto(register)?;
        match register {
            Register::Data => return self.write_data(width, value),
            Register::Command => return self.command(lanes.merge(0) as u8),
            Register::Tcr => self.write_tcr(lanes),
            Register::Rcr => self.write_rcr(lanes),
            Register::Control => self.write_control(lanes),
            Register::Interrupt => self.write_interrupt(lanes),
            _ => self.store(register, lanes),
        }
        Ok(())
    }

    /// The register's word, with nothing changed.
    fn peek(&self, register: Register) -> u16 {
        let now = &self.registers;
        let pair = u16::from_le_bytes;
        match register {
            Register::Tcr => now.tcr,
            Register::Ephsr => now.shown_ephsr(),
            Register::Rcr => now.rcr,
            Register::Ecr => now.ecr,
            // "low byte 18h", or 12h: the part's pages
            Register::Mir => {
                let pages = [self.part().pages(), self.packets.free_pages()];
                pair(pages.map(|count| count as u8))
            }
            Register::Reserved => pair([now.reserved, FILLER]),
            Register::Station(at) => pair([now.station.0[at], now.station.0[at + 1]]),
            Register::Control => now.control,
            // "MMU command (reads 0), 1 read-only 0"; data is read by width.
            Register::Command | Register::Data => 0,
            Register::Packet => {
                let result = now.result.map_or(0x80, PacketNumber::get);
                pair([now.packet_number, result])
            }
            Register::Heads => pair([self.completion.port(), self.rx.port()]),
            Register::Pointer => now.pointer.0,
            Register::Interrupt => pair([self.interrupt_status(), now.mask]),
            Register::Multicast(at) => pair([now.multicast[at], now.multicast[at + 1]]),
            Register::Bank => pair([now.bank, FILLER]),
            Register::Empty => pair([FILLER, FILLER]),
        }
    }

    /// Writes that only store, without a further effect.
    fn store(&mut self, register: Register, lanes: Lanes) {
        let now = &mut self.registers;
        match register {
            Register::Reserved => now.reserved = lanes.merge(0) as u8,
            Register::Station(at) => lanes.merge_pair(&mut now.station.0[at..]),
            // "packet number (value mod 64)"
            Register::Packet => now.packet_number = lanes.merge(0) as u8 % 64,
            Register::Pointer => now.pointer = Pointer(lanes.merge(now.pointer.0)),
            Register::Multicast(at) => lanes.merge_pair(&mut now.multicast[at..]),
            // "E is the bank (value mod 8)"
            Register::Bank => now.bank = lanes.merge(0) as u8 % 8,
            _ => {}
        }
    }

    /// "A write to either byte of TCR that leaves TXENA set clears EPHSR bits
    /// 15, 10, 9, 5, 4 and 0."
    fn write_tcr(&mut self, lanes: Lanes) {
        self.registers.tcr = lanes.merge(self.registers.tcr);
        if self.registers.tcr & tcr::TXENA != 0 {
            self.registers.ephsr &= !(ephsr::ERRORS | ephsr::TX_SUC);
        }
    }

    /// "RCR bit 0 (RX_ABORT) can only be cleared by a write, never set"; bit 15
    /// resets.
    fn write_rcr(&mut self, lanes: Lanes) {
        let old = self.registers.rcr;
        let new = lanes.merge(old) & (old | !rcr::RX_ABORT);
        if new & rcr::SOFT_RESET != 0 {
            self.soft_reset();
        } else {
            self.registers.rcr = new;
        }
    }

    /// A change of the link is remembered "until a write to either control byte".
    fn write_control(&mut self, lanes: Lanes) {
        let now = &mut self.registers;
        now.control = lanes.merge(now.control);
        now.link = now.link.without_change();
    }

    fn write_interrupt(&mut self, lanes: Lanes) {
        if let Some(bits) = lanes.low {
            self.acknowledge(bits);
        }
        if let Some(mask) = lanes.high {
            self.registers.mask = mask;
        }
    }

    /// "bit 1 removes the completion head if any; 2 and 4 clear their latch."
    fn acknowledge(&mut self, bits: u8) {
        if bits & interrupt::COMPLETION != 0 {
            self.completion.pop();
        }
        if bits & interrupt::TX_EMPTY != 0 {
            self.registers.tx_empty = false;
        }
        if bits & interrupt::RX_OVERRUN != 0 {
            self.registers.rx_overrun = false;
        }
    }

    /// "Reading either byte of ECR clears it and EPHSR bit 12".
    fn clear_counters(&mut self) {
        self.registers.ecr = 0;
        self.registers.ephsr &= !ephsr::COUNTER_ROLL;
    }

    /// Where a read of the data register finds its first byte, if it is done.
    pub fn data_read(&self, width: Width, offset: u8) -> Option<(PacketNumber, PacketAddress)> {
        check_offset(width, offset).ok()?;
        let register = Register::decode(self.registers.bank, offset).ok()?;
        if register != Register::Data {
            return None;
        }
        let packet = self.data_packet(width, true).ok()?;
        Some((packet, self.registers.pointer.address()))
    }

    fn read_data(&mut self, width: Width) -> Result<u16, Refusal> {
        let packet = self.data_packet(width, true)?;
        let address = self.registers.pointer.address();
        let value = match width {
            Width::Byte => u16::from(self.packets.byte(packet, address)),
            Width::Word => self.packets.word(packet, address),
        };
        self.advance(width);
        Ok(value)
    }

    fn write_data(&mut self, width: Width, value: u16) -> Result<(), Refusal> {
        let packet = self.data_packet(width, false)?;
        let address = self.registers.pointer.address();
        match width {
            Width::Byte => self.packets.set_byte(packet, address, value as u8),
            Width::Word => self.packets.set_word(packet, address, value),
        }
        self.advance(width);
        Ok(())
    }

    fn advance(&mut self, width: Width) {
        self.registers.pointer = self.registers.pointer.after(width.bytes());
    }

    /// The packet that a data access meets: refusals "7 or 5, 8, 9, 10".
    fn data_packet(&self, width: Width, reading: bool) -> Result<PacketNumber, Refusal> {
        let pointer = self.registers.pointer;
        // "RCV set means the head of RX, clear means the packet number register."
        let packet = if pointer.is_receive() {
            self.rx.head().ok_or(Refusal::RxEmpty)?
        } else {
            self.selected_packet().ok_or(Refusal::NotAllocated)?
        };
        if pointer.is_read() != reading {
            return Err(Refusal::AgainstReadBit);
        }
        let address = pointer.address().0;
        if address % 2 == 1 && !pointer.auto_increments() {
            return Err(Refusal::OddPointer);
        }
        if usize::from(address + width.bytes()) > self.packets.size(packet) {
            return Err(Refusal::PastPages);
        }
        Ok(packet)
    }
}
