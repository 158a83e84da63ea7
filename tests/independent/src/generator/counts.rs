//! Byte counts: usable ones, those with a fault or two, and what mends them.

use super::driver::*;
use super::Generator;
use crate::chip::tcr;
use crate::memory::Layout;

impl Generator {
    /// Mostly usable, else on the far side of a limit.
    pub fn byte_count(&mut self, size: usize) -> usize {
        match self.random.between(0, 19) {
            0..=8 => 2 * self.random.between(6, 40),
            9..=11 => 2 * self.random.between(6, size / 2),
            12..=13 => size - self.random.pick(&[0, 2, 4]),
            14 => self
                .random
                .pick(&[12, 14, 64, 66, 68, 70, 256, 258, 2_046, 2_048]),
            15..=18 => self.unusable_count(size),
            _ => usize::from(self.random.word()),
        }
    }

    /// "13 odd, 18 under 12, 19 past the pages", and 13 that hides another.
    fn unusable_count(&mut self, size: usize) -> usize {
        match self.random.between(0, 14) {
            0..=2 => self.random.pick(&[0, 0, 2, 4, 6, 8, 10, 10]),
            3..=4 | 13..=14 => self.random.pick(&[1, 3, 5, 7, 9, 11, 11]),
            5 => self.random.pick(&[13, 13, 15, size - 1, size - 1]),
            6 => 2 * self.random.between(6, size / 2 - 1) + 1,
            7 => size + self.random.pick(&[1, 1, 3, 255]),
            8 => size + 2 * self.random.between(0, 500) + 1,
            9 => size + self.random.pick(&[2, 2, 4, 256, 0x8000]),
            10 => size + 2 * self.random.between(1, 500),
            11 => self.random.pick(&[0x8000, 0x8001, 0xfffe, 0xffff]),
            _ => usize::from(self.random.word() | 0x1000),
        }
    }

    /// The TX head's byte count, unusable now; a packet in TX may still be
    /// written.
    fn spoil_head(&mut self) {
        let Some(packet) = self.chip().tx.head() else {
            return;
        };
        let size = self.chip().packets.size(packet);
        let count = self.unusable_count(size);
        self.select_packet(packet.get());
        self.load_words(2, &[count as u16]);
    }

    /// Makes the TX head's byte count usable, lest it block the queue.
    pub fn repair_head(&mut self) {
        let Some(packet) = self.chip().tx.head() else {
            return;
        };
        if self.chip().data_length(packet).is_ok() {
            return;
        }
        let size = self.chip().packets.size(packet);
        let even = 2 * self.random.between(6, size / 2);
        let count = self.random.pick(&[12, 14, even, size]);
        self.select_packet(packet.get());
        self.load_words(2, &[count as u16]);
        self.load_control(count);
    }

    /// Sends the TX head with a count that is refused, some of them by what
    /// comes before it.
    pub fn send_spoiled(&mut self) {
        self.spoil_head();
        if self.chip().registers.tcr & tcr::TXENA == 0 && !self.random.one_in(3) {
            self.enable_tx();
        }
        self.send_as_is();
    }

    /// A packet is released and granted anew, and sent with the unusable count
    /// that its earlier owner left: nobody has written it since.
    pub fn inherit_count(&mut self) {
        self.make_room(1);
        for step in [RELEASE, ENQUEUE] {
            self.command(ALLOCATE);
            let Some(packet) = self.chip().registers.result else {
                return;
            };
            self.select_packet(packet.get());
            if step == RELEASE {
                let count = self.unusable_count(256);
                self.load_words(2, &[count as u16]);
            }
            self.command(step);
        }
        self.enable_tx();
        self.send_as_is();
        self.repair_head();
    }

    /// A count that was usable or not is rewritten in TX, one fault after
    /// another, and mostly mended in the end.
    pub fn rewrite_counts(&mut self) {
        if self.chip().tx.is_empty() && self.steady_packet().is_some() {
            self.command(ENQUEUE);
        }
        for _ in 0..self.random.pick(&[1, 1, 2, 3]) {
            self.send_spoiled();
        }
        if !self.random.one_in(4) {
            self.repair_head();
        }
        self.send_as_is();
    }
}
