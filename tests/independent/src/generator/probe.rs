//! Scenes that probe: pointers, every offset, refused commands, odd records.

use super::driver::*;
use super::{Generator, Reading};
use crate::chip::Pointer;
use crate::memory::{Layout, PacketNumber};

/// A border between two pages of a packet; a gap when they are not adjacent.
#[derive(Clone, Copy)]
struct Border {
    packet: PacketNumber,
    address: usize,
    gap: bool,
}

impl Generator {
    /// Data accesses under every combination of the pointer's bits, at the
    /// packet's borders.
    pub fn walk_pointer(&mut self) {
        match self.random.between(0, 24) {
            0 => {
                let number = self.no_packet();
                self.select_packet(number);
            }
            1..=4 => {}
            _ => {
                if let Some(packet) = self.pick_packet(|_, _| true) {
                    self.select_packet(packet.get());
                }
            }
        }
        let mut flags = self.random.word() & Pointer::READ;
        if !self.random.one_in(4) {
            flags |= Pointer::AUTO_INCREMENT;
        }
        let receive = match self.chip().rx.is_empty() {
            true => self.random.one_in(8),
            false => self.random.one_in(2),
        };
        if receive {
            flags |= Pointer::RECEIVE;
        }
        let size = self.pointed_size(receive);
        let address = self.data_address(size);
        self.point(flags, address);
        for _ in 0..self.random.between(1, 8) {
            self.touch_data();
        }
        self.get(POINTER);
    }

    /// The size of the packet that the pointer means, or of a whole one.
    fn pointed_size(&self, receive: bool) -> usize {
        let packet = match receive {
            true => self.chip().rx.head(),
            false => self.chip().selected_packet(),
        };
        packet.map_or(2_048, |packet| self.chip().packets.size(packet))
    }

    /// Near 0, near page borders, near the packet's end, near 2,047.
    pub fn data_address(&mut self, size: usize) -> usize {
        match self.random.between(0, 9) {
            0..=2 => self.random.between(0, 12),
            3..=4 => {
                let border = 256 * self.random.between(1, (size / 256).min(7));
                border - 4 + self.random.between(0, 6)
            }
            5..=6 => size - self.random.between(1, 6),
            7 => size - 2 + self.random.between(0, 4),
            8 => 2_048 - self.random.between(1, 4),
            _ => self.random.between(0, 2_047),
        }
    }

    /// One data access, now and then against the READ bit.
    fn touch_data(&mut self) {
        self.select(DATA.0);
        let with = !self.random.one_in(12);
        let reads = self.chip().registers.pointer.is_read() == with;
        let offset = self.data_offset();
        match (reads, self.random.one_in(2)) {
            (true, true) => self.read_byte(offset),
            (true, false) => self.read_word(offset & !1),
            (false, true) => {
                let byte = self.random.byte();
                self.write_byte(offset, byte);
            }
            (false, false) => {
                let word = self.random.word();
                self.write_word(offset & !1, word);
            }
        }
    }

    /// Words across a page border, mostly where the pages are not adjacent.
    pub fn cross_border(&mut self) {
        let borders = self.page_borders();
        let gaps: Vec<_> = borders.iter().copied().filter(|at| at.gap).collect();
        let border = match (&borders[..], &gaps[..]) {
            ([], _) => return,
            (all, []) => self.random.pick(all),
            (_, gaps) => self.random.pick(gaps),
        };
        let start = border.address - self.random.pick(&[1, 1, 2, 3]);
        let words = [self.random.word(), self.random.word()];
        self.select_packet(border.packet.get());
        self.load_words(start, &words);
        self.look_at(0, start, 2);
    }

    /// Where one page of a packet ends and its next begins.
    fn page_borders(&self) -> Vec<Border> {
        let packets = self.chip().packets.layout();
        let borders = |packet| {
            let pairs = packets.pages(packet).windows(2);
            (1..).zip(pairs).map(move |(index, pair)| Border {
                packet,
                address: 256 * index,
                gap: pair[1].get() != pair[0].get() + 1,
            })
        };
        PacketNumber::all(packets.part())
            .flat_map(borders)
            .collect()
    }

    /// "the address grows by the width, modulo 2,048".
    pub fn wrap_pointer(&mut self) {
        let whole = self.pick_packet(|now, packet| now.chip().packets.size(packet) == 2_048);
        let Some(packet) = whole.or_else(|| {
            self.make_room(8);
            self.command(ALLOCATE + 7);
            self.chip().registers.result
        }) else {
            return;
        };
        self.select_packet(packet.get());
        let flags = Pointer::AUTO_INCREMENT | self.random.word() & Pointer::READ;
        let address = 2_048 - self.random.between(1, 4);
        self.point(flags, address);
        for _ in 0..self.random.between(2, 5) {
            self.touch_data();
        }
        self.get(POINTER);
    }

    /// A page read word by word: bytes that nobody wrote stay too.
    pub fn read_whole_page(&mut self) {
        if self.reading == Reading::Written {
            return self.read_back();
        }
        let Some(packet) = self.pick_packet(|_, _| true) else {
            return;
        };
        self.select_packet(packet.get());
        let pages = self.chip().packets.page_count(packet);
        let page = self.random.between(0, pages - 1);
        self.look_at(0, 256 * page, 128);
    }

    /// The whole memory, through packets of eight pages and of what is left: so
    /// that no byte differs unseen.
    pub fn read_whole_memory(&mut self) {
        if self.reading == Reading::Written {
            return self.free_all();
        }
        self.command(FREE_ALL);
        while self.chip().packets.free_pages() > 0 {
            let pages = self.chip().packets.free_pages().min(8);
            self.command(ALLOCATE + pages as u8 - 1);
            self.select_packet(self.chip().registers.result.map_or(0, PacketNumber::get));
            self.look_at(0, 0, 128 * pages);
        }
    }

    /// Any register of any bank, at both widths, read and written.
    pub fn poke_registers(&mut self) {
        let bank = self.random.pick(&[0, 0, 1, 1, 2, 2, 3, 3, 4, 5, 6, 7]);
        let bank_noise = self.random.pick(&[0, 0, 0, 0x08, 0xf8]);
        self.write_byte(0xe, bank | bank_noise);
        for _ in 0..self.random.between(2, 8) {
            self.poke_register();
        }
    }

    /// Every offset of a bank and some above, refused widths too.
    pub fn sweep_bank(&mut self) {
        let bank = self.random.between(0, 7) as u8;
        for offset in (0..=17).chain([255]) {
            self.select(bank);
            self.access(offset, offset);
        }
    }

    /// Any offset for a byte, mostly an even one for a word.
    fn poke_register(&mut self) {
        let offset = match self.random.one_in(15) {
            true => self.random.pick(&[16, 17, 18, 32, 128, 254, 255]),
            false => self.random.between(0, 15) as u8,
        };
        let for_word = match self.random.one_in(8) {
            true => offset,
            false => offset & !1,
        };
        self.access(offset, for_word);
    }

    /// A read or a write of either width, hardly ever a reset.
    fn access(&mut self, byte_offset: u8, word_offset: u8) {
        let mut value = self.random.word();
        let at_rcr = self.chip().registers.bank == RCR.0 && byte_offset & !1 == RCR.1;
        if at_rcr && !self.random.one_in(30) {
            value &= 0x7f7f; // bit 15 clear, by either byte
        }
        match self.random.between(0, 4) {
            0..=1 => self.read_byte(byte_offset),
            2 => self.read_word(word_offset),
            3 => self.write_byte(byte_offset, value as u8),
            _ => self.write_word(word_offset, value),
        }
    }

    /// Releases and enqueues of packets that are queued, free or no packets.
    pub fn trouble_queues(&mut self) {
        let number = match self.random.between(0, 5) {
            0 => self.no_packet(),
            1 => self.random.between(0, self.size() - 1) as u8,
            2 => self.chip().rx.port(),
            3 => self.chip().tx.port(),
            4 => self.chip().completion.port(),
            _ => self
                .pick_packet(|now, packet| now.chip().is_queued(packet))
                .map_or(self.size() as u8 - 1, PacketNumber::get),
        };
        self.select_packet(number & 0x3f);
        let command = self.random.pick(&[RELEASE, ENQUEUE]);
        self.command(command);
        if self.random.one_in(2) {
            self.command(command);
        }
        self.get(HEADS);
        self.get(MIR);
    }

    /// Commands that do nothing, allocate, or are reserved.
    pub fn odd_command(&mut self) {
        let command = match self.random.between(0, 5) {
            0 => 0x00,
            1 => ALLOCATE + self.random.between(0, 7) as u8,
            2..=3 => self.random.pick(&[
                0x01, 0x10, 0x1f, 0x28, 0x30, 0x3f, 0x41, 0x50, 0x61, 0x70, 0x81, 0x90, 0xa1, 0xb0,
                0xc1, 0xd0, 0xe1, 0xf0, 0xff,
            ]),
            4 => self.random.byte(),
            _ => self.random.pick(&[REMOVE_RX, RELEASE_RX]),
        };
        self.command(command);
        self.get(PACKET);
    }

    /// Unknown kinds, wrong counts, frames of nothing, parts asked for too late,
    /// sends out of limits.
    pub fn odd_record(&mut self) {
        match self.random.between(0, 6) {
            0..=1 => {
                let kind = self.random.pick(&[0, 10, 11, 12, 128, 255]);
                self.say(&[kind]);
            }
            2 => self.wrong_count(),
            3 => self.say(&[6]),
            4 => self.ask_for_part(),
            _ => self.send(),
        }
    }

    /// Records without any steering, mostly of a known kind.
    pub fn raw_records(&mut self) {
        for _ in 0..self.random.between(1, 4) {
            let mut record = [0; 8];
            record.fill_with(|| self.random.byte());
            if !self.random.one_in(10) {
                record[0] = self.random.between(1, 9) as u8;
                record[1] %= 18;
            }
            self.emit(record);
        }
    }
}
