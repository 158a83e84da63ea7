//! The chip's state: "What the model holds" and the reset values.

use crate::address::MacAddress;
use crate::fifo::Fifo;
use crate::link::Link;
use crate::memory::{Layout, PacketAddress, PacketNumber, Paged, Strips};
use crate::part::Part;

/// Bits of TCR that have a rule.
pub mod tcr {
    pub const TXENA: u16 = 1 << 0;
    pub const PAD_EN: u16 = 1 << 7;
    pub const NOCRC: u16 = 1 << 8;
    pub const MON_CSN: u16 = 1 << 10;
    pub const STP_SQET: u16 = 1 << 12;
    pub const FDSE: u16 = 1 << 15;
}

/// Bits of EPHSR that have a rule.
pub mod ephsr {
    pub const TX_SUC: u16 = 1 << 0;
    pub const SINGLE_COLLISION: u16 = 1 << 1;
    pub const MULTIPLE_COLLISIONS: u16 = 1 << 2;
    pub const LAST_GROUP: u16 = 1 << 3;
    pub const SIXTEEN_COLLISIONS: u16 = 1 << 4;
    pub const SQET: u16 = 1 << 5;
    pub const LAST_BROADCAST: u16 = 1 << 6;
    pub const LATE_COLLISION: u16 = 1 << 9;
    pub const LOST_CARRIER: u16 = 1 << 10;
    pub const COUNTER_ROLL: u16 = 1 << 12;
    /// Shown, and never stored.
    pub const LINK: u16 = 1 << 14;
    pub const UNDERRUN: u16 = 1 << 15;

    /// "EPHSR 15, 10, 9, 5, 4": what a failed send leaves.
    pub const ERRORS: u16 = UNDERRUN | LOST_CARRIER | LATE_COLLISION | SQET | SIXTEEN_COLLISIONS;
}

/// Bits of RCR that have a rule.
pub mod rcr {
    pub const RX_ABORT: u16 = 1 << 0;
    pub const PROMISCUOUS: u16 = 1 << 1;
    pub const ALL_MULTICAST: u16 = 1 << 2;
    pub const RXEN: u16 = 1 << 8;
    pub const STRIP_CRC: u16 = 1 << 9;
    pub const SOFT_RESET: u16 = 1 << 15;
}

/// Bits of the control register that have a rule.
pub mod control {
    pub const TX_ERROR_ENABLE: u16 = 1 << 5;
    pub const COUNTER_ENABLE: u16 = 1 << 6;
    pub const LINK_ENABLE: u16 = 1 << 7;
    pub const AUTO_RELEASE: u16 = 1 << 11;
    pub const RECEIVE_BAD: u16 = 1 << 14;
}

/// Bits of the interrupt status, acknowledge and mask bytes.
pub mod interrupt {
    pub const RX: u8 = 1 << 0;
    pub const COMPLETION: u8 = 1 << 1;
    pub const TX_EMPTY: u8 = 1 << 2;
    pub const ALLOCATION: u8 = 1 << 3;
    pub const RX_OVERRUN: u8 = 1 << 4;
    pub const EPH: u8 = 1 << 5;
}

/// "bit 15 RCV, 14 AUTO INCR, 13 READ, 10 to 0 address"; 12 and 11 are stored.
#[derive(Clone, Copy, Debug, Default, PartialEq, Eq)]
pub struct Pointer(pub u16);

impl Pointer {
    pub const RECEIVE: u16 = 1 << 15;
    pub const AUTO_INCREMENT: u16 = 1 << 14;
    pub const READ: u16 = 1 << 13;
    const ADDRESS: u16 = 0x07ff;

    pub fn is_receive(self) -> bool {
        self.0 & Self::RECEIVE != 0
    }

    pub fn auto_increments(self) -> bool {
        self.0 & Self::AUTO_INCREMENT != 0
    }

    pub fn is_read(self) -> bool {
        self.0 & Self::READ != 0
    }

    pub fn address(self) -> PacketAddress {
        PacketAddress(self.0 & Self::ADDRESS)
    }

    /// "With AUTO INCR the address grows by the width, modulo 2,048; other
    /// bits stay."
    pub fn after(self, width: u16) -> Self {
        if !self.auto_increments() {
            return self;
        }
        Self(self.0 & !Self::ADDRESS | (self.0 + width) & Self::ADDRESS)
    }
}

/// Everything a driver can set or see besides packets and FIFOs.
#[derive(Clone, Debug)]
pub struct Registers {
    pub bank: u8,
    pub tcr: u16,
    /// All of EPHSR but the link, which `shown_ephsr` has.
    pub ephsr: u16,
    pub rcr: u16,
    pub ecr: u16,
    /// Pages reserved for transmit.
    pub reserved: u8,
    pub station: MacAddress,
    pub control: u16,
    pub packet_number: u8,
    /// The allocation result; None reads 80h.
    pub result: Option<PacketNumber>,
    /// The pages that a pending request waits for; the result then reads 80h.
    pub waiting: Option<usize>,
    pub pointer: Pointer,
    /// TX EMPTY, latched.
    pub tx_empty: bool,
    /// RX_OVRN, latched.
    pub rx_overrun: bool,
    pub mask: u8,
    pub multicast: [u8; 8],
    pub link: Link,
}

impl Registers {
    /// "EPHSR bit 14 shows it": the link stands for the bit that is stored.
    pub fn shown_ephsr(&self) -> u16 {
        match self.link.up {
            true => self.ephsr | ephsr::LINK,
            false => self.ephsr & !ephsr::LINK,
        }
    }
}

impl Default for Registers {
    /// "all 0 but allocation result 80h and TX EMPTY set".
    fn default() -> Self {
        Self {
            bank: 0,
            tcr: 0,
            ephsr: 0,
            rcr: 0,
            ecr: 0,
            reserved: 0,
            station: MacAddress::default(),
            control: 0,
            packet_number: 0,
            result: None,
            waiting: None,
            pointer: Pointer::default(),
            tx_empty: true,
            rx_overrun: false,
            mask: 0,
            multicast: [0; 8],
            link: Link::default(),
        }
    }
}

/// The whole chip; by default the LAN91C96, at power-up. Its rules are the same
/// wherever the packets' bytes lie.
#[derive(Clone, Debug)]
pub struct ChipOn<L> {
    pub registers: Registers,
    /// Which packets there are, with their bytes.
    pub packets: L,
    pub rx: Fifo,
    pub tx: Fifo,
    pub completion: Fifo,
}

/// Document 01's chip.
pub type Chip = ChipOn<Paged>;

/// Request W3: "A straight-strip chip beside the paged one."
pub type StripChip = ChipOn<Strips>;

impl<L: Layout> Default for ChipOn<L> {
    fn default() -> Self {
        Self::new(Part::default())
    }
}

impl<L: Layout> ChipOn<L> {
    /// A part at power-up.
    pub fn new(part: Part) -> Self {
        Self {
            registers: Registers::default(),
            packets: L::new(part),
            rx: Fifo::new(part),
            tx: Fifo::new(part),
            completion: Fifo::new(part),
        }
    }

    /// Which part it is; nothing that happens to a chip makes it another.
    pub fn part(&self) -> Part {
        self.packets.part()
    }

    /// "resets everything except the station address and packet memory; RCR
    /// then reads 8000h"; "keeps the link and forgets the change".
    pub fn soft_reset(&mut self) {
        self.packets.release_all();
        self.empty_fifos();
        self.registers = Registers {
            rcr: rcr::SOFT_RESET,
            station: self.registers.station,
            link: self.registers.link.without_change(),
            ..Registers::default()
        };
    }

    pub fn empty_fifos(&mut self) {
        self.rx.clear();
        self.tx.clear();
        self.completion.clear();
    }

    /// "packet still in RX or TX FIFO".
    pub fn is_queued(&self, packet: PacketNumber) -> bool {
        self.rx.contains(packet) || self.tx.contains(packet)
    }

    /// The packet in the packet number register, if it is allocated.
    pub fn selected_packet(&self) -> Option<PacketNumber> {
        PacketNumber::new(self.part(), self.registers.packet_number)
            .filter(|&packet| self.packets.is_allocated(packet))
    }

    /// "Interrupt status: 0 RX not empty; 1 completion not empty; ...".
    pub fn interrupt_status(&self) -> u8 {
        let bits = [
            (!self.rx.is_empty(), interrupt::RX),
            (!self.completion.is_empty(), interrupt::COMPLETION),
            (self.registers.tx_empty, interrupt::TX_EMPTY),
            (self.registers.result.is_some(), interrupt::ALLOCATION),
            (self.registers.rx_overrun, interrupt::RX_OVERRUN),
            (self.eph(), interrupt::EPH),
        ];
        bits.iter()
            .filter(|(up, _)| *up)
            .fold(0, |status, (_, bit)| status | bit)
    }

    /// "The line is up when status and mask share a bit."
    pub fn line_is_up(&self) -> bool {
        self.interrupt_status() & self.registers.mask != 0
    }

    /// "EPH is (EPHSR bit 12 and control bit 6) or (any of EPHSR 15, 10, 9, 5,
    /// 4 while bit 0 is clear, and control bit 5)", and by "a third term" (a
    /// change of the link and control bit 7).
    fn eph(&self) -> bool {
        let Registers {
            ephsr,
            control,
            link,
            ..
        } = self.registers;
        let rolled = ephsr & ephsr::COUNTER_ROLL != 0;
        let failed = ephsr & ephsr::ERRORS != 0 && ephsr & ephsr::TX_SUC == 0;
        rolled && control & control::COUNTER_ENABLE != 0
            || failed && control & control::TX_ERROR_ENABLE != 0
            || link.changed && control & control::LINK_ENABLE != 0
    }
}
