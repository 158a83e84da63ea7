//! Scenes that set the chip up, or throw everything away.

use super::driver::*;
use super::Generator;
use crate::address::MacAddress;
use crate::chip::{control, rcr, tcr};

/// Mostly one bit, which then decides the line alone: under several the line is
/// nearly always up.
const MASKS: [u8; 20] = [
    0x01, 0x01, 0x01, 0x02, 0x02, 0x02, 0x04, 0x04, 0x08, 0x10, 0x10, 0x20, 0x20, 0x20, 0x03, 0x11,
    0x30, 0xc0, 0xff, 0x00,
];

impl Generator {
    /// All registers, as a driver does after a reset.
    pub fn configure_all(&mut self) {
        self.set_rcr();
        self.set_tcr();
        self.set_control();
        self.set_reserved();
        self.set_station();
        self.set_multicast();
        self.set_mask();
    }

    /// One or two registers.
    pub fn configure_some(&mut self) {
        let settings: [fn(&mut Self); 10] = [
            Self::set_rcr,
            Self::set_rcr,
            Self::set_tcr,
            Self::set_tcr,
            Self::set_control,
            Self::set_control,
            Self::set_reserved,
            Self::set_station,
            Self::set_multicast,
            Self::set_mask,
        ];
        for _ in 0..self.random.between(1, 2) {
            let setting = self.random.pick(&settings);
            setting(self);
        }
    }

    /// Each listed bit with its chance of one in so many, over rare noise.
    fn bits(&mut self, chances: &[(u16, usize)], noise_mask: u16) -> u16 {
        let noise = match self.random.one_in(6) {
            true => self.random.word() & noise_mask,
            false => 0,
        };
        chances.iter().fold(noise, |word, &(bit, times)| {
            let set = self.random.one_in(times);
            if set {
                word | bit
            } else {
                word & !bit
            }
        })
    }

    fn set_rcr(&mut self) {
        let chances = [
            (rcr::RX_ABORT, 3),
            (rcr::PROMISCUOUS, 4),
            (rcr::ALL_MULTICAST, 4),
            (rcr::STRIP_CRC, 2),
        ];
        let mut value = self.bits(&chances, !rcr::SOFT_RESET);
        if self.random.one_in(10) {
            value &= !rcr::RXEN;
        } else {
            value |= rcr::RXEN;
        }
        self.put_rcr(value);
    }

    fn set_tcr(&mut self) {
        let chances = [
            (tcr::PAD_EN, 2),
            (tcr::NOCRC, 2),
            (tcr::MON_CSN, 2),
            (tcr::STP_SQET, 2),
            (tcr::FDSE, 3),
        ];
        let mut value = self.bits(&chances, u16::MAX);
        if self.random.one_in(8) {
            value &= !tcr::TXENA;
        } else {
            value |= tcr::TXENA;
        }
        if self.random.one_in(4) {
            // TXENA as it is: "a write to either byte"
            self.select(TCR.0);
            self.write_byte(TCR.1 + 1, (value >> 8) as u8);
        } else {
            self.put(TCR, value);
        }
        self.get(EPHSR);
    }

    /// Sets TXENA again and leaves the rest, as after a failed send.
    pub fn enable_tx(&mut self) {
        let value = self.chip().registers.tcr | tcr::TXENA;
        self.select(TCR.0);
        if self.random.one_in(2) {
            self.write_byte(TCR.1, value as u8);
        } else {
            self.write_word(TCR.1, value);
        }
    }

    fn set_control(&mut self) {
        let chances = [
            (control::TX_ERROR_ENABLE, 2),
            (control::COUNTER_ENABLE, 2),
            (control::LINK_ENABLE, 3),
            (control::AUTO_RELEASE, 3),
        ];
        let mut value = self.bits(&chances, u16::MAX);
        if self.random.one_in(3) {
            value &= !control::RECEIVE_BAD;
        } else {
            value |= control::RECEIVE_BAD;
        }
        self.put(CONTROL, value);
    }

    /// Sets or clears one bit of the control register.
    pub fn set_control_bit(&mut self, bit: u16, set: bool) {
        let now = self.chip().registers.control;
        self.put(CONTROL, if set { now | bit } else { now & !bit });
    }

    fn set_reserved(&mut self) {
        let small = [0, 0, 0, 0, 0, 0, 0, 1, 1, 2, 3, 4, 6, 8];
        let large = [12, 16, 17, 18, 19, 22, 23, 24, 25, 127, 255];
        let value = match self.random.one_in(6) {
            true => self.random.pick(&large),
            false => self.random.pick(&small),
        };
        self.select(RESERVED.0);
        self.write_byte(RESERVED.1, value);
    }

    fn set_station(&mut self) {
        let mut station = [0; 6];
        station.fill_with(|| self.random.byte());
        match self.random.between(0, 9) {
            0 => station[0] |= 1,
            1 => station = MacAddress::BROADCAST.0,
            2 => station = [0; 6],
            _ => station[0] &= 0xfe,
        }
        for (offset, pair) in (4..).step_by(2).zip(station.chunks_exact(2)) {
            self.put(Place(1, offset), u16::from_le_bytes([pair[0], pair[1]]));
        }
    }

    fn set_multicast(&mut self) {
        let fill = self.random.between(0, 5);
        for offset in [0, 2, 4, 6] {
            let value = match fill {
                0 => 0,
                1 => 0xffff,
                2 => 1 << self.random.between(0, 15),
                _ => self.random.word(),
            };
            self.put(Place(3, offset), value);
        }
    }

    pub fn set_mask(&mut self) {
        let mask = self.random.pick(&MASKS);
        self.select(INTERRUPT.0);
        self.write_byte(INTERRUPT.1 + 1, mask);
    }

    pub fn soft_reset(&mut self) {
        self.select(RCR.0);
        let value = rcr::SOFT_RESET | self.random.word();
        if self.random.one_in(2) {
            self.write_word(RCR.1, value);
        } else {
            self.write_byte(RCR.1 + 1, (value >> 8) as u8);
        }
        if self.random.one_in(2) {
            // bit 15 is still set, so a low byte resets what came since
            self.set_control();
            self.allocate();
            self.plug();
            self.select(RCR.0);
            let low = self.random.byte();
            self.write_byte(RCR.1, low);
        }
        if self.random.one_in(3) {
            self.ask_for_part(); // a reset is no power-up
        }
        self.look_at_reset();
        self.configure_all();
    }

    /// Every register whose reset value shows, and "the station address".
    fn look_at_reset(&mut self) {
        let bank_0 = [0x0, 0x2, 0x4, 0x6, 0x8, 0xa].map(|offset| (0, offset));
        let bank_1 = [0x4, 0x6, 0x8, 0xc].map(|offset| (1, offset));
        let bank_2 = [0x2, 0x4, 0x6, 0xc].map(|offset| (2, offset));
        let bank_3 = [0x0, 0x2, 0x4, 0x6].map(|offset| (3, offset));
        self.read_word(0xe);
        for (bank, offset) in [&bank_0[..], &bank_1, &bank_2, &bank_3].concat() {
            self.select(bank);
            self.read_word(offset);
        }
    }

    pub fn free_all(&mut self) {
        self.command(FREE_ALL);
        for place in [MIR, PACKET, HEADS, INTERRUPT] {
            self.get(place);
        }
    }

    pub fn empty_tx(&mut self) {
        self.command(EMPTY_TX);
        for place in [MIR, HEADS, INTERRUPT] {
            self.get(place);
        }
    }
}
