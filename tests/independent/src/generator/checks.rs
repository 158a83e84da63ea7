//! Scenes of the frame check sequence: frames that it keeps out or not, sends
//! that append it or not, and sends that come back as frames.

use super::driver::*;
use super::Generator;
use crate::chip::{control, rcr, tcr};
use crate::wire::Check;

/// The longest echo that is heard without thinking twice: it costs records.
const CHEAP_ECHO: usize = 130;

impl Generator {
    /// A right FCS mostly, so that frames are stored; long frames are rare, so
    /// more of them are wrong.
    pub fn check(&mut self, length: usize) -> Check {
        let wrong = match length {
            0..=1_500 => 7,
            _ => 4,
        };
        match self.random.one_in(wrong) {
            true => self.wrong_check(length),
            false => Check::Right,
        }
    }

    /// An FCS that is wrong in any way, of a frame of so many bytes.
    fn wrong_check(&mut self, length: usize) -> Check {
        match self.random.between(0, 11) {
            _ if length < 18 => Check::Any, // refused whatever they are
            0 => Check::Any,
            1 => Check::NotComplemented,
            2 => Check::OtherOrder,
            3 => Check::OtherBits,
            4..=6 => Check::Cut(self.random.between(1, 4)),
            7..=9 => {
                // a byte of the FCS, or the last before it
                let place = length - self.random.between(1, 5);
                Check::Changed(place, 1 << self.random.between(0, 7))
            }
            10 => Check::Changed(self.random.between(0, 5), self.random.byte() | 1),
            _ => Check::Changed(self.random.between(6, length - 1), self.random.byte() | 1),
        }
    }

    /// Accepts every frame from now on, or at times few or none; RCR as it was,
    /// to be put back.
    fn accept_all(&mut self) -> u16 {
        let now = self.chip().registers.rcr & !rcr::SOFT_RESET;
        let all = now | rcr::RXEN | rcr::PROMISCUOUS;
        let value = match self.random.between(0, 11) {
            0 => all & !rcr::RXEN,
            1..=2 => all & !(rcr::PROMISCUOUS | rcr::ALL_MULTICAST),
            _ => all,
        };
        self.put_rcr(value);
        now
    }

    /// Short frames that only their FCS, the flag or their length can keep out.
    pub fn judged_frames(&mut self) {
        let rcr = self.accept_all();
        let stores = self.random.one_in(2);
        self.set_control_bit(control::RECEIVE_BAD, stores);
        if !self.bench.gathered.is_empty() {
            self.say(&[6]); // stray bytes would lengthen the first
        }
        for _ in 0..self.random.between(1, 4) {
            if !self.random.one_in(6) {
                self.make_room(1);
                self.admit(1);
            }
            let length = self.random.pick(&[18, 20, 63, 64, 64, 65, 68]);
            let check = match self.random.one_in(3) {
                true => Check::Right,
                false => self.wrong_check(length),
            };
            let destination = self.destination();
            self.gather(destination, length, check);
            let flags = self.random.pick(&[0, 0, 1, 1, 2, 3, 0xfd, 0xfe]);
            self.say(&[6, flags]);
        }
        self.drain();
        self.put_rcr(rcr);
    }

    /// A packet whose data is short, or either side of 60 and of 64, with each
    /// bit of TCR and of the control byte that says what goes behind it.
    pub fn send_near_padding(&mut self) {
        let Some(packet) = self.obtain_packet() else {
            return self.tidy();
        };
        let pad = self.random.pick(&[0, tcr::PAD_EN]);
        let nocrc = self.random.pick(&[0, tcr::NOCRC]);
        let now = self.chip().registers.tcr & !(tcr::PAD_EN | tcr::NOCRC);
        self.put(TCR, now | tcr::TXENA | pad | nocrc);
        self.select_packet(packet.get());
        let count = self.random.pick(&[14, 64, 66, 68, 68, 70]);
        self.load_words(2, &[count as u16]);
        self.load_control(count);
        self.command(ENQUEUE);
        self.send_until_done(packet);
        if self.random.one_in(4) {
            self.hear_echo();
        }
    }

    /// What the last send put out comes back as a frame, mostly to be stored.
    pub fn hear_echo(&mut self) {
        let bytes = self.last_put_out.clone();
        if bytes.len() > CHEAP_ECHO && !self.random.one_in(20) {
            return self.drain();
        }
        if !self.bench.gathered.is_empty() {
            self.say(&[6]); // stray bytes would be no part of it
        }
        let rcr = self.accept_all();
        self.gather_bytes(&bytes);
        self.end_and_look();
        self.put_rcr(rcr);
    }
}

#[cfg(test)]
mod tests {
    use super::super::{Generator, Reading};
    use crate::{crc, wire};

    /// A frame of any length can be wrong in any way, and then is.
    #[test]
    fn wrong_checks_of_every_length() {
        let mut generator = Generator::new(Reading::Free, 1, 0);
        for length in (0..140).chain([1_532, 2_048]) {
            for _ in 0..200 {
                let check = generator.wrong_check(length);
                let mut frame = vec![0x5a; length];
                wire::end(&mut frame, check);
                assert!(crc::is_bad(&frame), "{length} bytes, {check:?}");
            }
        }
    }
}
