//! Scenes of a cable: it is plugged in and pulled out, and what comes between
//! leaves the link, shows it, or forgets its change.

use super::driver::*;
use super::Generator;
use crate::chip::{control, interrupt};

impl Generator {
    /// The cable moves a few times, with something between and a look behind it.
    pub fn move_cable(&mut self) {
        if self.random.one_in(2) {
            self.await_change();
        }
        for _ in 0..self.random.pick(&[1, 1, 2, 3]) {
            self.plug();
            for _ in 0..self.random.pick(&[0, 1, 1, 2]) {
                self.meet_link();
            }
        }
        self.look_at_link();
        if !self.random.one_in(3) {
            self.put_control(); // a driver has seen the change
        }
    }

    /// Control bit 7, and mostly a mask under which the line goes up in the very
    /// event.
    fn await_change(&mut self) {
        self.set_control_bit(control::LINK_ENABLE, true);
        if !self.random.one_in(3) {
            self.select(INTERRUPT.0);
            self.write_byte(INTERRUPT.1 + 1, interrupt::EPH);
        }
    }

    /// Mostly the other state, else the same again, or a byte 1 that is refused.
    pub fn plug(&mut self) {
        let now = u8::from(self.chip().registers.link.up);
        let state = match self.random.between(0, 19) {
            0..=12 => 1 - now,
            13..=16 => now,
            17..=18 => self.random.pick(&[2, 2, 3, 0x80, 0xff]),
            _ => self.random.byte(),
        };
        self.say(&[8, state]);
    }

    fn look_at_link(&mut self) {
        if !self.random.one_in(3) {
            self.get(EPHSR);
        }
        if self.random.one_in(2) {
            self.get(INTERRUPT);
        }
    }

    /// Something that leaves the change, but for a write of control.
    fn meet_link(&mut self) {
        match self.random.between(0, 23) {
            0..=4 => self.look_at_link(),
            5..=8 => self.put_control(),
            9 => self.get(CONTROL),
            10 => self.set_mask(),
            11..=12 => self.acknowledge_eph(),
            13 => self.get(ECR),
            14 => self.enable_tx(),
            15..=20 => self.send_and_look(),
            21 if self.random.one_in(8) => self.free_all(),
            21 => self.odd_command(),
            _ => self.short_frame(),
        }
    }

    /// "a write to either control byte": bit 7 is set, cleared or left as it is.
    fn put_control(&mut self) {
        let now = self.chip().registers.control;
        let bit = control::LINK_ENABLE;
        let value = self.random.pick(&[now, now | bit, now | bit, now & !bit]);
        self.select(CONTROL.0);
        match self.random.between(0, 2) {
            0 => self.write_byte(CONTROL.1, value as u8),
            1 => self.write_byte(CONTROL.1 + 1, (value >> 8) as u8),
            _ => self.write_word(CONTROL.1, value),
        }
    }

    /// An acknowledge of EPH, which clears nothing.
    fn acknowledge_eph(&mut self) {
        self.select(INTERRUPT.0);
        self.write_byte(INTERRUPT.1, interrupt::EPH);
    }

    /// A send, and the status word that it left; the cable may have moved since.
    fn send_and_look(&mut self) {
        if self.chip().tx.is_empty() && self.steady_packet().is_some() {
            self.command(ENQUEUE);
        }
        let sent = self.chip().tx.head();
        self.send();
        if !self.random.one_in(3) {
            self.plug();
        }
        if let Some(packet) = sent {
            self.select_packet(packet.get());
            self.look_at(0, 0, 1);
        }
    }
}
