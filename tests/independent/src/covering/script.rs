//! A script: records in the order in which they are said, each played on a
//! bench of its own, so that a scenario can ask what came of it.

use crate::address::MacAddress;
use crate::bench::{Answer, Bench, Record};
use crate::chip::{Chip, Pointer};
use crate::memory::PacketNumber;
use crate::places::*;
use crate::random::Random;
use crate::wire::{self, Check};

/// How an access is made.
#[derive(Clone, Copy, Debug, PartialEq, Eq)]
pub enum Way {
    ReadByte = 1,
    ReadWord = 2,
    WriteByte = 3,
    WriteWord = 4,
}

impl Way {
    pub const ALL: [Self; 4] = [
        Self::WriteWord,
        Self::ReadWord,
        Self::WriteByte,
        Self::ReadByte,
    ];

    pub fn reads(self) -> bool {
        matches!(self, Self::ReadByte | Self::ReadWord)
    }
}

/// Which bytes of a register a write reaches.
#[derive(Clone, Copy, Debug, PartialEq, Eq)]
pub enum Bytes {
    Low,
    High,
    Both,
}

impl Bytes {
    pub const ALL: [Self; 3] = [Self::Low, Self::High, Self::Both];
}

pub struct Script {
    pub random: Random,
    bench: Bench,
    records: Vec<Record>,
}

impl Script {
    pub fn new(seed: u64) -> Self {
        Self {
            random: Random::new(seed),
            bench: Bench::default(),
            records: Vec::new(),
        }
    }

    pub fn chip(&self) -> &Chip {
        &self.bench.chip
    }

    pub fn into_records(self) -> Vec<Record> {
        self.records
    }

    /// Says a record by its leading bytes; the others are "ignored", so they
    /// hold noise.
    pub fn say(&mut self, bytes: &[u8]) -> Answer {
        let mut record = Record::default();
        record.fill_with(|| self.random.byte());
        record[..bytes.len()].copy_from_slice(bytes);
        self.records.push(record);
        self.bench.step(&record)
    }

    /// Selects a bank if another one is in use.
    pub fn select(&mut self, bank: u8) {
        if self.chip().registers.bank != bank {
            let _ = self.say(&[3, 0xe, bank]);
        }
    }

    pub fn access(&mut self, way: Way, offset: u8, value: u16) {
        let [low, high] = value.to_le_bytes();
        let _ = self.say(&[way as u8, offset, low, high]);
    }

    pub fn get(&mut self, place: Place) {
        self.get_bytes(place, Bytes::Both);
    }

    pub fn get_bytes(&mut self, Place(bank, offset): Place, bytes: Bytes) {
        self.select(bank);
        match bytes {
            Bytes::Low => self.access(Way::ReadByte, offset, 0),
            Bytes::High => self.access(Way::ReadByte, offset + 1, 0),
            Bytes::Both => self.access(Way::ReadWord, offset, 0),
        }
    }

    pub fn put(&mut self, place: Place, value: u16) {
        self.put_bytes(place, Bytes::Both, value);
    }

    /// Writes the bytes of the value that are meant.
    pub fn put_bytes(&mut self, Place(bank, offset): Place, bytes: Bytes, value: u16) {
        self.select(bank);
        match bytes {
            Bytes::Low => self.access(Way::WriteByte, offset, value & 0xff),
            Bytes::High => self.access(Way::WriteByte, offset + 1, value >> 8),
            Bytes::Both => self.access(Way::WriteWord, offset, value),
        }
    }

    /// An MMU command; the word that some take has noise above it.
    pub fn command(&mut self, command: u8) {
        let noise = self.random.word() & 0xff00;
        let bytes = self.random.pick(&[Bytes::Low, Bytes::Both]);
        self.put_bytes(COMMAND, bytes, noise | u16::from(command));
    }

    /// Allocates; the number of the new packet, or of none that exists.
    pub fn allocate(&mut self, pages: u8) -> u8 {
        self.command(ALLOCATE + pages - 1);
        self.chip().registers.result.map_or(63, PacketNumber::get)
    }

    pub fn choose(&mut self, packet: u8) {
        self.put_bytes(PACKET, Bytes::Low, packet.into());
    }

    pub fn release(&mut self, packet: u8) {
        self.choose(packet);
        self.command(RELEASE);
    }

    pub fn enqueue(&mut self, packet: u8) {
        self.choose(packet);
        self.command(ENQUEUE);
    }

    pub fn acknowledge(&mut self, bits: u8) {
        self.put_bytes(INTERRUPT, Bytes::Low, bits.into());
    }

    pub fn mask(&mut self, mask: u8) {
        self.put_bytes(INTERRUPT, Bytes::High, u16::from(mask) << 8);
    }

    /// Writes words into the chosen packet from an address on.
    pub fn load(&mut self, address: u16, words: &[u16]) {
        self.put(POINTER, Pointer::AUTO_INCREMENT | address);
        for &word in words {
            self.access(Way::WriteWord, DATA.1, word);
        }
    }

    /// The byte at an address of the chosen packet.
    pub fn load_byte(&mut self, address: u16, byte: u8) {
        self.put(POINTER, Pointer::AUTO_INCREMENT | address);
        self.access(Way::WriteByte, DATA.1, byte.into());
    }

    /// Gathers so many random bytes behind a destination address, with the check
    /// as their end.
    pub fn gather(&mut self, destination: MacAddress, length: usize, check: Check) {
        let mut frame: Vec<u8> = (0..length).map(|_| self.random.byte()).collect();
        let known = length.min(6);
        frame[..known].copy_from_slice(&destination.0[..known]);
        wire::end(&mut frame, check);
        self.gather_bytes(&frame);
    }

    fn gather_bytes(&mut self, frame: &[u8]) {
        for piece in frame.chunks(6) {
            let mut bytes = vec![5, piece.len() as u8];
            bytes.extend(piece);
            let _ = self.say(&bytes);
        }
    }

    /// A frame with a right FCS, and the flags of its end.
    pub fn frame(&mut self, destination: MacAddress, length: usize, flags: u8) {
        self.checked_frame(destination, length, Check::Right, flags);
    }

    /// A frame with an FCS that is right or wrong.
    pub fn checked_frame(
        &mut self,
        destination: MacAddress,
        length: usize,
        check: Check,
        flags: u8,
    ) {
        self.gather(destination, length, check);
        let _ = self.say(&[6, flags]);
    }

    /// What the last send put out, so many bytes, comes back as a frame.
    pub fn echo(&mut self, length: usize) {
        let frame = self.bench.output[..length].to_vec();
        self.gather_bytes(&frame);
        let _ = self.say(&[6, 0]);
    }

    /// A packet of random bytes that holds a frame of n bytes, out of RX.
    pub fn filled(&mut self, length: usize) -> u8 {
        self.frame(MacAddress::BROADCAST, length, 0);
        let packet = self.chip().rx.port();
        self.command(REMOVE_RX);
        packet
    }

    pub fn send(&mut self, outcome: u8, collisions: u8, deferral: u8) {
        let _ = self.say(&[7, outcome, collisions, deferral]);
    }

    /// A link event.
    pub fn plug(&mut self, state: u8) {
        let _ = self.say(&[8, state]);
    }

    /// A record of kind 9, which asks for a part.
    pub fn ask(&mut self, byte: u8) {
        let _ = self.say(&[9, byte]);
    }

    /// Sets TXENA and the other bits of TCR.
    pub fn enable(&mut self, bits: u16) {
        self.put(TCR, bits | crate::chip::tcr::TXENA);
    }
}
