//! Scenes of a part: it is asked for where it no longer can be, and all its
//! numbers and pages are used up.

use super::driver::*;
use super::Generator;
use crate::memory::Layout;
use crate::part::Part;

impl Generator {
    /// The first record, of kind 9, and at times another behind it.
    pub fn start(&mut self, part: Part) {
        self.say(&[9, part.byte()]);
        if self.random.one_in(2) {
            self.ask_for_part();
        }
    }

    /// A record of kind 9 that is not the first: either part's byte, a size of
    /// theirs, or one beside.
    pub fn ask_for_part(&mut self) {
        let byte = match self.random.between(0, 6) {
            0..=1 => Part::Lan91c94.byte(),
            2..=3 => Part::Lan91c96.byte(),
            4..=5 => self
                .random
                .pick(&[0x00, 0x01, 0x12, 0x18, 0x93, 0x95, 0x97]),
            _ => self.random.byte(),
        };
        self.say(&[9, byte]);
    }

    /// How many packets the part has, and pages.
    pub fn size(&self) -> usize {
        self.chip().part().packets()
    }

    /// A number that no packet has: the first, one that is the other part's or
    /// none's, the last that the register holds, or any between.
    pub fn no_packet(&mut self) -> u8 {
        let first = self.size();
        let any = self.random.between(first, 63);
        self.random
            .pick(&[first, first, first.max(23), 24, 63, any]) as u8
    }

    /// A page to each packet, until no number is left: to requests, to frames or
    /// to both. Then one more is asked for.
    pub fn use_up_numbers(&mut self) {
        if self.random.one_in(3) {
            self.reserve_all_but_a_frame();
        }
        self.command(FREE_ALL);
        let frames = self.random.pick(&[0, 0, 0, 1, 2, 6]);
        while self.chip().packets.free_pages() > 0 {
            if self.random.between(1, 6) <= frames {
                self.admit(1);
                self.broadcast(1);
            } else {
                self.command(ALLOCATE);
            }
        }
        self.get(MIR);
        self.use_last_number();
        if self.random.one_in(3) {
            self.enqueue_all();
        }
        self.ask_for_one_more();
        match self.random.one_in(2) {
            true => self.tidy(),
            false => self.free_all(),
        }
    }

    /// The last number is written, read and queued; those above are not.
    fn use_last_number(&mut self) {
        let last = self.size() as u8 - 1;
        let above = [self.no_packet(), self.no_packet()];
        let words = [self.random.word(), self.random.word()];
        let at = self.random.pick(&[4, 252]);
        for number in [last, above[0], above[1]] {
            self.select_packet(number);
            self.load_words(at, &words);
            self.look_at(0, at, 2);
            if number != last || self.random.one_in(4) {
                self.command(RELEASE);
            }
            self.command(ENQUEUE);
        }
        self.get(HEADS);
    }

    /// All pages are free but those reserved: one too few for a frame, then just
    /// enough.
    fn reserve_all_but_a_frame(&mut self) {
        let pages = self.random.between(1, 2);
        let enough = self.size() - pages;
        self.command(FREE_ALL);
        for reserved in [enough + 1, enough] {
            self.put(RESERVED, reserved as u16);
            self.broadcast(pages);
        }
    }

    /// Every packet that is not queued yet, from the last on or from the first.
    fn enqueue_all(&mut self) {
        let size = self.size() as u8;
        let from_last = self.random.one_in(2);
        for number in 0..size {
            self.select_packet(if from_last { size - 1 - number } else { number });
            self.load_words(2, &[12]);
            self.command(ENQUEUE);
        }
        self.get(HEADS);
    }
}
