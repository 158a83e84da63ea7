//! Scenes of the receive side: frames of every length, RX full and drained.

use super::driver::*;
use super::Generator;
use crate::address::MacAddress;
use crate::chip::{control, rcr, Pointer};
use crate::memory::{Layout, PacketNumber};
use crate::wire::{self, Check};

impl Generator {
    pub fn short_frame(&mut self) {
        let length = match self.random.between(0, 9) {
            0 => self.random.pick(&[0, 1, 6, 12, 16, 17, 17, 17]),
            1 => 18,
            2 => self.random.pick(&[19, 21, 22, 23]),
            3..=4 => self.random.pick(&[63, 64, 65, 66, 67, 68]),
            _ => self.random.between(24, 130),
        };
        self.frame(length);
    }

    /// Either side of the first page borders.
    pub fn middling_frame(&mut self) {
        let length = match self.random.between(0, 2) {
            0 => self.random.between(248, 260),
            1 => self.random.between(504, 516),
            _ => self.random.between(130, 800),
        };
        self.frame(length);
    }

    /// Either side of 1,518 and of 1,532. They cost many records, so most are
    /// accepted and find room.
    pub fn long_frame(&mut self) {
        let length = match self.random.between(0, 9) {
            0..=1 => self.random.between(1_514, 1_522),
            2..=3 => self.random.between(1_528, 1_536),
            4..=7 => self
                .random
                .pick(&[1_518, 1_519, 1_520, 1_531, 1_532, 1_532, 1_533]),
            8 => self.random.between(1_272, 1_284),
            _ => self.random.between(800, 2_048),
        };
        if self.random.one_in(4) {
            return self.frame(length);
        }
        self.put(RESERVED, 0);
        self.make_room(8);
        let station = self.chip().registers.station;
        let destination = self.random.pick(&[station, MacAddress::BROADCAST]);
        self.frame_to(destination, length);
    }

    /// A frame of the length to an address of any kind.
    pub fn frame(&mut self, length: usize) {
        let destination = self.destination();
        self.frame_to(destination, length);
    }

    /// A frame, its end, and mostly a look at what was stored.
    fn frame_to(&mut self, destination: MacAddress, length: usize) {
        if !self.bench.gathered.is_empty() && !self.random.one_in(4) {
            self.say(&[6]); // stray bytes would shift the destination
        }
        let check = self.check(length);
        self.gather(destination, length, check);
        self.end_and_look();
    }

    pub fn end_and_look(&mut self) {
        let before = self.chip().rx.len();
        self.end_frame();
        if self.chip().rx.len() > before && !self.random.one_in(3) {
            self.look_at_head();
        }
        if self.chip().registers.rx_overrun && self.random.one_in(2) {
            self.get(INTERRUPT);
            self.acknowledge_overrun();
        }
        if self.random.one_in(3) {
            self.drain();
        }
    }

    /// So many random bytes behind a destination address, with the check as
    /// their end; it is that of all that is gathered then.
    pub fn gather(&mut self, destination: MacAddress, length: usize, check: Check) {
        let mut frame = self.bench.gathered.as_slice().to_vec();
        let stray = frame.len();
        frame.extend(destination.0.into_iter().take(length));
        frame.resize_with(stray + length, || self.random.byte());
        let check = match check {
            Check::Changed(place, bits) => Check::Changed(stray + place, bits),
            other => other,
        };
        wire::end(&mut frame, check);
        self.gather_bytes(&frame[stray..]);
    }

    /// Kind 5 records: six bytes each, or fewer when the frame is short.
    pub fn gather_bytes(&mut self, mut left: &[u8]) {
        let even_pieces = left.len() > 200 || !self.random.one_in(8);
        while !left.is_empty() {
            let most = left.len().min(6);
            let count = match even_pieces {
                true => most,
                false => self.random.between(1, most),
            };
            let (piece, behind) = left.split_at(count);
            let mut bytes = [0; 8];
            bytes.fill_with(|| self.random.byte());
            bytes[..2].copy_from_slice(&[5, count as u8]);
            bytes[2..2 + count].copy_from_slice(piece);
            self.emit(bytes);
            left = behind;
            if self.random.one_in(150) {
                self.wrong_count();
            }
            if self.random.one_in(300) {
                // accesses may come between a frame's bytes
                self.look_around();
            }
            if self.random.one_in(150) {
                self.plug(); // and a cable may be pulled
            }
            if self.random.one_in(300) {
                self.ask_for_part(); // in vain, and they are still there
            }
        }
    }

    pub fn wrong_count(&mut self) {
        let count = self.random.pick(&[0, 7, 8, 255]);
        self.say(&[5, count]);
    }

    /// Long frames are rare, so more of them are flagged. "bit 0 .. ignored".
    fn end_frame(&mut self) {
        let kinds = match self.bench.gathered.len() {
            0..=1_500 => 15,
            _ => 7,
        };
        let flags = match self.random.between(0, kinds) {
            0 => 1,
            1 => 2,
            2 => 3,
            3 => self.random.byte(),
            4 => 0xfc,
            _ => 0,
        };
        self.say(&[6, flags]);
    }

    /// An address of each interesting kind.
    pub fn destination(&mut self) -> MacAddress {
        let station = self.chip().registers.station;
        match self.random.between(0, 15) {
            0..=4 => station,
            5..=7 => MacAddress::BROADCAST,
            8..=10 => self.group_address(true),
            11..=12 => self.group_address(false),
            13 => self.almost(station),
            14 => self.almost(MacAddress::BROADCAST),
            _ => {
                let mut other = self.any_address();
                other.0[0] &= 0xfe;
                other
            }
        }
    }

    fn any_address(&mut self) -> MacAddress {
        let mut address = [0; 6];
        address.fill_with(|| self.random.byte());
        MacAddress(address)
    }

    /// A group address in the table or out of it, if a few tries find one.
    fn group_address(&mut self, in_table: bool) -> MacAddress {
        let table = self.chip().registers.multicast;
        let mut address = self.any_address();
        for _ in 0..64 {
            address.0[0] |= 1;
            if address.hash().is_set_in(&table) == in_table {
                break;
            }
            address = self.any_address();
        }
        address.0[0] |= 1;
        address
    }

    /// One bit away.
    fn almost(&mut self, mut address: MacAddress) -> MacAddress {
        let byte = self.random.between(0, 5);
        address.0[byte] ^= 1 << self.random.between(0, 7);
        address
    }

    /// Status, count, trailer, page borders and a byte beyond, of the RX head.
    fn look_at_head(&mut self) {
        let Some(packet) = self.chip().rx.head() else {
            return;
        };
        let size = self.chip().packets.size(packet);
        let count = usize::from(self.chip().byte_count(packet));
        self.look_at(Pointer::RECEIVE, 0, 5);
        if (4..size).contains(&count) {
            self.look_at(Pointer::RECEIVE, count - 3, 3);
        }
        for border in (256..size).step_by(256) {
            if self.random.one_in(2) {
                self.look_at(Pointer::RECEIVE, border - 2, 2);
            } else {
                self.look_at(Pointer::RECEIVE, border - 1, 1);
            }
        }
    }

    /// 60h or 80h, on an empty RX too.
    pub fn drain(&mut self) {
        let times = match self.chip().rx.len() {
            0 if !self.random.one_in(4) => return self.get(HEADS),
            0 => 1,
            held => self.random.between(1, held.min(6)),
        };
        for _ in 0..times {
            if self.random.one_in(4) {
                self.look_at_head();
            }
            let head = self.chip().rx.head();
            match (self.random.one_in(4), head) {
                (true, Some(packet)) => {
                    self.command(REMOVE_RX);
                    self.after_removal(packet);
                }
                (true, None) => self.command(REMOVE_RX),
                (false, _) => self.command(RELEASE_RX),
            }
        }
        self.get(MIR);
    }

    /// A removed packet is the driver's: released, sent on, or kept a while.
    fn after_removal(&mut self, packet: PacketNumber) {
        match self.random.between(0, 3) {
            0 => {}
            1 => {
                self.select_packet(packet.get());
                self.command(ENQUEUE);
            }
            _ => self.release(packet),
        }
    }

    /// Frames until there is no room, and a few more.
    pub fn fill_rx(&mut self) {
        let strip = self.chip().registers.rcr & rcr::STRIP_CRC;
        self.put_rcr(rcr::RXEN | rcr::PROMISCUOUS | strip);
        self.set_control_bit(control::RECEIVE_BAD, true);
        let mut refused = 0;
        for _ in 0..30 {
            let length = self.random.pick(&[18, 20, 24, 40, 64, 65, 130, 252, 256]);
            let destination = self.destination();
            let check = self.check(length);
            self.gather(destination, length, check);
            let before = self.chip().rx.len();
            self.say(&[6]);
            if self.chip().rx.len() == before {
                self.get(RCR);
                self.get(INTERRUPT);
                refused += 1;
            }
            if refused == 3 {
                break;
            }
        }
        self.get(MIR);
        if self.random.one_in(2) {
            // clears RX_ABORT, which a write can only clear
            self.put_rcr(rcr::RXEN | rcr::PROMISCUOUS | strip);
            self.acknowledge_overrun();
        }
        self.drain();
    }

    pub fn acknowledge_overrun(&mut self) {
        self.select(INTERRUPT.0);
        self.write_byte(INTERRUPT.1, 0x10);
    }

    /// "more than 2,048 would gather".
    pub fn gather_too_much(&mut self) {
        let destination = self.destination();
        let room = 2_048 - self.bench.gathered.len();
        let short = self.random.between(0, room.min(3));
        let check = self.check(room - short);
        self.gather(destination, room - short, check);
        for _ in 0..self.random.between(2, 4) {
            let count = self.random.between(1, 6) as u8;
            self.say(&[5, count]);
        }
        self.end_frame();
    }
}
