//! Streams that request W3's promise is for: before a record that would read
//! bytes which nobody wrote since their packet's grant, they are written, or the
//! record is left out. And scenes that read what was written.

use super::driver::*;
use super::Generator;
use crate::bench::Record;
use crate::chip::{control, rcr, tcr, Pointer};
use crate::memory::{Layout, PacketAddress, PacketNumber, STRIP_SIZE};
use crate::reads::Bytes;
use crate::wire::Check;

/// Which bytes the records of a stream may read.
#[derive(Clone, Copy, Debug, PartialEq, Eq)]
pub enum Reading {
    /// Any.
    Free,
    /// "each send reads only bytes written since its packet was allocated".
    WrittenBySends,
    /// Data reads too, so that the paged chip and the strip chip answer alike.
    Written,
}

/// So many bytes are written before a send without thinking twice.
const CHEAP: usize = 60;

impl Generator {
    /// Writes what a record would read and must not read as it is. Is it to be
    /// kept then.
    pub fn make_readable(&mut self, record: &Record) -> bool {
        let Some(bytes) = self.forbidden(record) else {
            return true;
        };
        match record[0] {
            7 => self.write_before_send(record, bytes.packet),
            _ => self.write_before_read(&bytes),
        }
        self.forbidden(record).is_none()
    }

    fn forbidden(&self, record: &Record) -> Option<Bytes> {
        match (self.reading, record[0]) {
            (Reading::WrittenBySends, 7) | (Reading::Written, _) => self.bench.unwritten(record),
            _ => None,
        }
    }

    /// One or two bytes at the pointer, which is then what it was. Most data
    /// reads are left out instead, for this takes three records.
    fn write_before_read(&mut self, bytes: &Bytes) {
        if !self.random.one_in(3) {
            return;
        }
        let pointer = self.chip().registers.pointer;
        let flags = pointer.0 & Pointer::RECEIVE | Pointer::AUTO_INCREMENT;
        self.write_word(POINTER.1, flags | bytes.addresses[0].0);
        self.load_run(bytes.addresses.len());
        self.write_word(POINTER.1, pointer.0);
    }

    /// A count for the TX head, and the bytes that it asks for. The control
    /// byte may ask for one byte more when it is there.
    fn write_before_send(&mut self, record: &Record, packet: PacketNumber) {
        self.select_packet(packet.get());
        let is_written = |address| self.chip().packets.is_written(packet, address);
        if !is_written(PacketAddress(2)) || !is_written(PacketAddress(3)) {
            let count = self.byte_count(self.chip().packets.size(packet));
            self.load_words(2, &[count as u16]);
        }
        let missing = self.forbidden(record).map_or(0, |it| it.addresses.len());
        if missing > CHEAP && !self.random.one_in(12) {
            let count = 2 * self.random.between(6, 30);
            self.load_words(2, &[count as u16]);
        }
        self.write_control(packet);
        while let Some(bytes) = self.forbidden(record) {
            self.write_first_run(&bytes.addresses);
        }
    }

    /// The byte at c − 1, unless it is written or c is unusable.
    fn write_control(&mut self, packet: PacketNumber) {
        if self.chip().data_length(packet).is_err() {
            return;
        }
        let count = self.chip().byte_count(packet);
        let control = PacketAddress(count - 1);
        if !self.chip().packets.is_written(packet, control) {
            self.load_control(count.into());
        }
    }

    /// The addresses that follow each other, from the first on.
    fn write_first_run(&mut self, addresses: &[PacketAddress]) {
        let first = addresses[0].0;
        let run = (first..).zip(addresses).take_while(|(at, it)| *at == it.0);
        let length = run.count();
        self.point(Pointer::AUTO_INCREMENT, first.into());
        self.load_run(length);
    }

    /// So many bytes at the pointer, by words but for an odd one, which comes
    /// first or last.
    fn load_run(&mut self, length: usize) {
        let odd_first = length % 2 == 1 && self.random.one_in(2);
        if odd_first {
            self.load_byte();
        }
        for _ in 0..length / 2 {
            let word = self.random.word();
            self.load_word(word);
        }
        if length % 2 == 1 && !odd_first {
            self.load_byte();
        }
    }

    fn load_byte(&mut self) {
        let (offset, byte) = (self.data_offset(), self.random.byte());
        self.write_byte(offset, byte);
    }

    /// Bytes of any packet that were written long ago, or just now.
    pub fn look_at_written(&mut self) {
        let Some(packet) =
            self.pick_packet(|now, packet| now.chip().packets.written(packet).next().is_some())
        else {
            return;
        };
        let written: Vec<_> = self.chip().packets.written(packet).collect();
        let border = |address: &&PacketAddress| address.0 % 256 >= 252 && address.0 > 4;
        let borders: Vec<_> = written.iter().filter(border).copied().collect();
        let at = match borders.is_empty() || self.random.one_in(2) {
            true => self.random.pick(&written),
            false => self.random.pick(&borders),
        };
        self.select_packet(packet.get());
        let words = self.random.between(1, 6);
        self.look_at(0, at.0.into(), words);
    }

    /// A run over a page's border, or more of them, is written and read back.
    pub fn read_back(&mut self) {
        let Some(packet) = self.pick_packet(|now, packet| now.chip().packets.size(packet) > 256)
        else {
            return self.allocate();
        };
        let size = self.chip().packets.size(packet);
        let border = 256 * self.random.between(1, size / 256 - 1);
        let first = border - self.random.between(1, 12);
        let length = match self.random.one_in(12) {
            true => self.random.between(12, 300),
            false => self.random.between(12, 24),
        };
        let words = length.min(size - first) / 2;
        self.select_packet(packet.get());
        self.point(Pointer::AUTO_INCREMENT, first);
        self.load_run(2 * words);
        if self.random.one_in(3) {
            self.look_around();
        }
        self.select_packet(packet.get());
        self.look_at(0, first, words);
    }

    /// Two packets are written at the same place of a page, the one mostly in
    /// its first page, the number below it in its last: no byte is in both.
    pub fn write_beside(&mut self) {
        let full = self.pick_packet(|now, packet| now.size_below(packet) == STRIP_SIZE);
        let either = full.or_else(|| self.pick_packet(|now, packet| now.size_below(packet) > 0));
        let Some(packet) = either else {
            self.make_room(9);
            self.command(ALLOCATE + 7);
            return self.command(ALLOCATE);
        };
        let place = self.random.between(0, 252);
        let first = match self.random.one_in(4) {
            true => self.chip().packets.size(packet) - 256 + place,
            false => place,
        };
        let last = self.size_below(packet) - 256 + place;
        for (number, address) in [(packet.get(), first), (packet.get() - 1, last)] {
            let words = [self.random.word(), self.random.word()];
            self.select_packet(number);
            self.load_words(address, &words);
        }
        self.select_packet(packet.get());
        self.look_at(0, first, 2);
    }

    /// The size of the packet with the number below, 0 if there is none.
    fn size_below(&self, packet: PacketNumber) -> usize {
        let below = packet.get().checked_sub(1);
        let below = below.and_then(|number| PacketNumber::new(self.chip().part(), number));
        below.map_or(0, |below| self.chip().packets.size(below))
    }

    /// A frame of some pages, which are mostly not adjacent, is stored, taken
    /// out of RX and sent on: every byte that its send reads is the frame's.
    pub fn forward_frame(&mut self) {
        let now = self.chip().registers.rcr & !rcr::SOFT_RESET;
        self.put_rcr(now | rcr::RXEN | rcr::PROMISCUOUS);
        self.put(RESERVED, 0);
        self.shuffle_packets();
        let pages = self.random.pick(&[1, 2, 2, 2, 3, 3, 4, 6]);
        self.make_room(pages);
        while !self.chip().rx.is_empty() {
            self.command(RELEASE_RX);
        }
        if !self.bench.gathered.is_empty() {
            self.say(&[6]); // stray bytes would lengthen the frame
        }
        let destination = self.destination();
        let length = 256 * pages - self.random.between(8, 200);
        self.gather(destination, length, Check::Right);
        self.say(&[6, 0]);
        if let Some(packet) = self.chip().rx.head() {
            self.command(REMOVE_RX);
            self.send_on(packet);
        }
    }

    /// Sends a packet, and mostly again with other bytes somewhere in it.
    fn send_on(&mut self, packet: PacketNumber) {
        for _ in 0..self.random.between(1, 3) {
            self.select_packet(packet.get());
            self.command(ENQUEUE);
            self.send_until_done(packet);
            if !self.chip().packets.is_allocated(packet) {
                return;
            }
            self.select_packet(packet.get());
            let at = self.data_address(self.chip().packets.size(packet));
            let words = [self.random.word(), self.random.word()];
            self.load_words(at, &words);
        }
    }

    /// Sends a few times, until the packet has left TX.
    pub fn send_until_done(&mut self, packet: PacketNumber) {
        for _ in 0..4 {
            if !self.chip().tx.contains(packet) {
                return;
            }
            if self.chip().registers.tcr & tcr::TXENA == 0 {
                self.enable_tx();
            }
            self.send();
        }
    }

    /// A packet that is sent whole, written in any order, and released, so that
    /// its pages and its strip hold bytes that the next owner may not read.
    pub fn send_and_release(&mut self) {
        self.make_room(2);
        let pages = self.random.between(1, 2) as u8;
        self.command(ALLOCATE + pages - 1);
        let Some(packet) = self.chip().registers.result else {
            return;
        };
        self.select_packet(packet.get());
        let count = 2 * self.random.between(6, 60);
        self.load_control(count);
        self.load_words(2, &[count as u16]);
        self.command(ENQUEUE);
        let releases = self.random.one_in(2);
        self.set_control_bit(control::AUTO_RELEASE, releases);
        self.send_until_done(packet);
        self.release(packet);
    }
}
