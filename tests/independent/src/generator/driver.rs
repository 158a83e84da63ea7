//! What a driver does in one go: accesses, commands, pointers.

use super::Generator;
use crate::chip::{rcr, Pointer};
use crate::memory::{Layout, PacketNumber};
pub use crate::places::*;

impl Generator {
    pub fn read_byte(&mut self, offset: u8) {
        self.say(&[1, offset])
    }

    pub fn read_word(&mut self, offset: u8) {
        self.say(&[2, offset])
    }

    pub fn write_byte(&mut self, offset: u8, value: u8) {
        self.say(&[3, offset, value])
    }

    pub fn write_word(&mut self, offset: u8, value: u16) {
        let [low, high] = value.to_le_bytes();
        self.say(&[4, offset, low, high])
    }

    /// Selects a bank, mostly only when another is in use.
    pub fn select(&mut self, bank: u8) {
        if self.chip().registers.bank == bank && !self.random.one_in(40) {
            return;
        }
        if self.random.one_in(5) {
            let noise = self.random.word() & 0xfff8;
            self.write_word(0xe, noise | u16::from(bank));
        } else {
            self.write_byte(0xe, bank);
        }
    }

    /// Reads a register as a word, a byte or both bytes.
    pub fn get(&mut self, Place(bank, offset): Place) {
        self.select(bank);
        match self.random.between(0, 5) {
            0 => self.read_byte(offset),
            1 => self.read_byte(offset + 1),
            2 => {
                self.read_byte(offset);
                self.read_byte(offset + 1);
            }
            _ => self.read_word(offset),
        }
    }

    /// Writes a register as a word or byte by byte, in either order.
    pub fn put(&mut self, Place(bank, offset): Place, value: u16) {
        self.select(bank);
        let [low, high] = value.to_le_bytes();
        match self.random.between(0, 7) {
            0 => {
                self.write_byte(offset, low);
                self.write_byte(offset + 1, high);
            }
            1 => {
                self.write_byte(offset + 1, high);
                self.write_byte(offset, low);
            }
            _ => self.write_word(offset, value),
        }
    }

    /// A write that cannot reset by a byte at RCR's 8000h.
    pub fn put_rcr(&mut self, value: u16) {
        if self.chip().registers.rcr & rcr::SOFT_RESET != 0 {
            self.select(0);
            self.write_word(RCR.1, value);
        } else {
            self.put(RCR, value);
        }
    }

    pub fn command(&mut self, command: u8) {
        self.select(COMMAND.0);
        if self.random.one_in(4) {
            let high = u16::from(self.random.byte()) << 8;
            self.write_word(COMMAND.1, high | u16::from(command))
        } else {
            self.write_byte(COMMAND.1, command)
        }
    }

    pub fn select_packet(&mut self, number: u8) {
        self.select(PACKET.0);
        // "value mod 64"
        let noise = self.random.pick(&[0, 0, 0, 0x40, 0x80, 0xc0]);
        if self.random.one_in(4) {
            self.write_word(PACKET.1, u16::from(number | noise));
        } else {
            self.write_byte(PACKET.1, number | noise);
        }
    }

    pub fn point(&mut self, flags: u16, address: usize) {
        let noise = match self.random.one_in(8) {
            true => self.random.word() & 0x1800,
            false => 0,
        };
        self.put(POINTER, flags | noise | address as u16 & 0x07ff);
    }

    /// Points into the selected packet for loading and writes words there.
    pub fn load_words(&mut self, address: usize, words: &[u16]) {
        self.point(Pointer::AUTO_INCREMENT, address);
        for &word in words {
            self.load_word(word);
        }
    }

    pub fn load_word(&mut self, word: u16) {
        let offset = self.data_offset();
        if self.random.one_in(6) {
            let [low, high] = word.to_le_bytes();
            self.write_byte(offset, low);
            self.write_byte(offset ^ 1, high);
        } else {
            self.write_word(offset & !1, word);
        }
    }

    /// Any of "8 to B data".
    pub fn data_offset(&mut self) -> u8 {
        self.random.between(0x8, 0xb) as u8
    }

    /// Reads a few words of the packet under `flags` from `address` on.
    pub fn look_at(&mut self, flags: u16, address: usize, words: usize) {
        self.point(flags | Pointer::AUTO_INCREMENT | Pointer::READ, address);
        for _ in 0..words {
            let offset = self.data_offset();
            if self.random.one_in(6) {
                self.read_byte(offset);
                self.read_byte(offset);
            } else {
                self.read_word(offset & !1);
            }
        }
    }

    /// Reads a few of the registers that show what has changed.
    pub fn look_around(&mut self) {
        let places = [
            EPHSR, TCR, RCR, MIR, PACKET, HEADS, HEADS, POINTER, INTERRUPT, INTERRUPT,
        ];
        for _ in 0..self.random.between(1, 3) {
            let place = self.random.pick(&places);
            self.get(place);
        }
        if self.random.one_in(30) {
            self.get(ECR);
            self.get(EPHSR);
        }
    }

    /// An allocated packet that satisfies `fits`, if there is one.
    pub fn pick_packet(
        &mut self,
        fits: impl Fn(&Self, PacketNumber) -> bool,
    ) -> Option<PacketNumber> {
        let fitting: Vec<_> = PacketNumber::all(self.chip().part())
            .filter(|&packet| self.chip().packets.is_allocated(packet) && fits(self, packet))
            .collect();
        (!fitting.is_empty()).then(|| self.random.pick(&fitting))
    }

    /// An allocated packet in neither RX nor TX.
    pub fn pick_idle(&mut self) -> Option<PacketNumber> {
        self.pick_packet(|now, packet| !now.chip().is_queued(packet))
    }
}
