//! Scenes of the transmit side: allocate, load, enqueue, send, complete.

use super::driver::*;
use super::Generator;
use crate::chip::{control, tcr, Pointer};
use crate::memory::{Layout, PacketNumber};

impl Generator {
    /// A packet's whole life, with each step sometimes left out.
    pub fn transmit(&mut self) {
        for _ in 0..self.random.pick(&[1, 1, 1, 2, 3]) {
            let Some(packet) = self.obtain_packet() else {
                return self.tidy();
            };
            self.load_and_enqueue(packet);
        }
        self.send_some();
    }

    pub fn load_and_enqueue(&mut self, packet: PacketNumber) {
        self.select_packet(packet.get());
        if !self.random.one_in(6) {
            self.load(packet);
        }
        self.command(ENQUEUE);
    }

    /// Sends what is queued, and enqueues again what has completed.
    pub fn send_again(&mut self) {
        if self.chip().tx.is_empty() {
            if let Some(packet) = self.pick_idle() {
                self.select_packet(packet.get());
                self.command(ENQUEUE);
            }
        }
        self.send_some();
    }

    fn send_some(&mut self) {
        for _ in 0..self.random.between(1, 3) {
            self.send();
            if self.random.one_in(3) {
                self.look_at_completed();
            }
            if self.random.one_in(2) {
                self.complete();
            }
        }
    }

    /// A granted packet, or one that lies idle.
    pub fn obtain_packet(&mut self) -> Option<PacketNumber> {
        if self.random.one_in(3) {
            if let Some(packet) = self.pick_idle() {
                return Some(packet);
            }
        }
        self.allocate();
        self.chip().registers.result
    }

    pub fn allocate(&mut self) {
        let pages = self
            .random
            .pick(&[1, 1, 1, 1, 2, 2, 2, 3, 3, 4, 5, 6, 7, 8]);
        self.command(ALLOCATE + pages - 1);
        self.get(PACKET);
        if let (Some(packet), true) = (self.chip().registers.result, self.random.one_in(4)) {
            // "Bytes of freed pages stay."
            self.select_packet(packet.get());
            self.look_at(0, 0, 2);
        }
    }

    /// Byte count, destination, control byte and some data.
    fn load(&mut self, packet: PacketNumber) {
        let size = self.chip().packets.size(packet);
        let count = self.byte_count(size);
        let destination = self.destination();
        let words: Vec<u16> = destination
            .0
            .chunks_exact(2)
            .map(|pair| u16::from_le_bytes([pair[0], pair[1]]))
            .collect();
        self.load_words(2, &[count as u16]);
        if !self.random.one_in(6) {
            self.load_words(4, &words);
        }
        if (2..=size).contains(&count) {
            self.load_control(count);
        }
        for _ in 0..self.random.between(0, 2) {
            let at = self.data_address(size);
            let word = self.random.word();
            self.load_words(at, &[word]);
        }
    }

    /// The byte at count − 1, by a byte or within its word.
    pub fn load_control(&mut self, count: usize) {
        let byte = self
            .random
            .pick(&[0x00, 0x20, 0x20, 0x40, 0x60, 0x10, 0x30, 0xdf, 0xff]);
        if count.is_multiple_of(2) && self.random.one_in(2) {
            let before = u16::from(self.random.byte());
            self.point(self.maybe_increment(), count - 2);
            self.write_word(DATA.1, u16::from(byte) << 8 | before);
        } else {
            self.point(Pointer::AUTO_INCREMENT, count - 1);
            self.write_byte(DATA.1, byte);
        }
    }

    fn maybe_increment(&self) -> u16 {
        // Either works at an even address; take what the chip has now.
        self.chip().registers.pointer.0 & Pointer::AUTO_INCREMENT
    }

    /// A send that mostly finds TXENA set and a usable count.
    pub fn send(&mut self) {
        if self.chip().registers.tcr & tcr::TXENA == 0 && !self.random.one_in(4) {
            self.enable_tx();
        }
        if !self.random.one_in(3) {
            self.repair_head();
        }
        self.send_as_is();
    }

    /// A send of any outcome, within its limits most of the time.
    pub fn send_as_is(&mut self) {
        let outcome = match self.random.between(0, 99) {
            0..=39 => 0,
            40..=51 => 1,
            52..=61 => 2,
            62..=75 => 3,
            76..=89 => 4,
            90..=97 => 5,
            98 => 6,
            _ => self.random.pick(&[7, 255]),
        };
        let collisions = match outcome {
            _ if self.random.one_in(25) => self.random.pick(&[0, 15, 16, 17, 255]),
            1 => 16,
            _ => self.random.pick(&[0, 0, 0, 1, 1, 2, 3, 15]),
        };
        let deferral = match self.random.one_in(40) {
            true => self.random.pick(&[3, 4, 255]),
            false => self.random.pick(&[0, 0, 1, 2]),
        };
        self.say(&[7, outcome, collisions, deferral])
    }

    /// The status word that the last send left in its packet.
    fn look_at_completed(&mut self) {
        if let Some(packet) = self.chip().completion.head() {
            self.select_packet(packet.get());
            self.look_at(0, 0, 2);
        }
    }

    /// Release and acknowledge, in either order, each sometimes left out.
    fn complete(&mut self) {
        let Some(packet) = self.chip().completion.head() else {
            return;
        };
        let release_first = self.random.one_in(2);
        if release_first {
            self.release(packet);
        }
        if !self.random.one_in(5) {
            self.put(INTERRUPT, 0x0002 | self.mask_above());
        }
        if !release_first && self.random.one_in(2) {
            self.release(packet);
        }
    }

    fn mask_above(&self) -> u16 {
        u16::from(self.chip().registers.mask) << 8
    }

    pub fn release(&mut self, packet: PacketNumber) {
        self.select_packet(packet.get());
        self.command(RELEASE);
    }

    pub fn acknowledge(&mut self) {
        self.get(INTERRUPT);
        let bits = match self.random.one_in(3) {
            true => self.random.byte(),
            false => self.random.pick(&[0x02, 0x04, 0x10, 0x06, 0x16, 0x29]),
        };
        self.select(INTERRUPT.0);
        if self.random.one_in(4) {
            let mask = u16::from(self.random.byte()) << 8;
            self.write_word(INTERRUPT.1, mask | u16::from(bits));
        } else {
            self.write_byte(INTERRUPT.1, bits);
        }
        self.get(INTERRUPT);
    }

    /// A short packet ready to be sent over and over.
    pub fn steady_packet(&mut self) -> Option<PacketNumber> {
        let packet = self.pick_idle().or_else(|| {
            self.command(ALLOCATE);
            self.chip().registers.result
        })?;
        self.select_packet(packet.get());
        self.load_words(2, &[12]);
        Some(packet)
    }

    /// "25 sends of packet 0, each enqueued again and none acknowledged, end
    /// in 14", whatever the packet; on the LAN91C94 19.
    pub fn fill_completion(&mut self) {
        let Some(packet) = self.steady_packet() else {
            return self.tidy();
        };
        self.set_control_bit(control::AUTO_RELEASE, false);
        for _ in 0..40 {
            if self.chip().completion.is_full() {
                break;
            }
            self.select_packet(packet.get());
            self.command(ENQUEUE);
            self.send();
        }
        // More than enough: each of these meets a full FIFO, some of them with
        // a count that is refused first.
        self.command(ENQUEUE);
        for _ in 0..self.random.between(3, 7) {
            if self.random.one_in(3) {
                self.send_spoiled();
            } else {
                self.send();
            }
        }
        if self.random.one_in(2) {
            // A good send now releases its packet and is not refused.
            self.set_control_bit(control::AUTO_RELEASE, true);
            for _ in 0..3 {
                self.send();
            }
        }
        for _ in 0..self.random.pick(&[1, 2, 30]) {
            self.put(INTERRUPT, 0x0002 | self.mask_above());
        }
    }

    /// "They stop at 15": one kind of send until a nibble is full and beyond.
    pub fn stop_counters(&mut self) {
        let Some(packet) = self.steady_packet() else {
            return self.tidy();
        };
        let collisions = self.random.pick(&[0, 1, 2, 15]);
        let deferral = self.random.pick(&[0, 1, 1, 2, 2]);
        self.set_control_bit(control::AUTO_RELEASE, false);
        for _ in 0..self.random.between(14, 18) {
            self.enable_tx();
            self.select_packet(packet.get());
            self.command(ENQUEUE);
            self.repair_head();
            self.say(&[7, 0, collisions, deferral]);
            self.write_byte(INTERRUPT.1, 0x02);
        }
        self.get(EPHSR);
        self.get(INTERRUPT);
        if !self.random.one_in(3) {
            self.get(ECR);
            self.get(ECR);
            self.get(EPHSR);
        }
    }

    /// Grants and releases in no order, so that pages stop being adjacent.
    pub fn shuffle_packets(&mut self) {
        for _ in 0..self.random.between(2, 6) {
            match self.pick_idle() {
                Some(packet) if self.random.one_in(2) => self.release(packet),
                _ => self.allocate(),
            }
        }
        self.get(MIR);
    }

    /// Releases idle packets, drains RX or sends when pages run low.
    pub fn tidy(&mut self) {
        let third = self.size() / 3;
        let pages = self.random.between(third, 2 * third);
        self.make_room(pages);
    }

    /// Frees pages until so many are free, or a few steps have not got there.
    pub fn make_room(&mut self, pages: usize) {
        for _ in 0..8 {
            if self.chip().packets.free_pages() >= pages {
                return;
            }
            match self.pick_idle() {
                Some(packet) => self.release(packet),
                None if !self.chip().rx.is_empty() => self.drain(),
                None => self.send(),
            }
        }
    }
}
