//! "Link state": a cable is plugged in or not, and the chip remembers that this
//! has changed.

use crate::chip::ChipOn;
use crate::memory::Layout;
use crate::refusal::Refusal;

/// "At power-up the link is down with no change seen".
#[derive(Clone, Copy, Debug, Default, PartialEq, Eq)]
pub struct Link {
    pub up: bool,
    /// "a change of it is remembered".
    pub changed: bool,
}

impl Link {
    /// "sets the link up or down"; "The same state again is no change", and
    /// leaves one that was seen before.
    fn set(&mut self, up: bool) {
        self.changed |= self.up != up;
        self.up = up;
    }

    /// The same link, and no change seen.
    pub fn without_change(self) -> Self {
        Self {
            changed: false,
            ..self
        }
    }
}

impl<L: Layout> ChipOn<L> {
    /// A cable is plugged in or pulled out: "byte 1 is 0 or 1", and 11 "for any
    /// other".
    pub fn plug(&mut self, state: u8) -> Result<(), Refusal> {
        let up = match state {
            0 => false,
            1 => true,
            _ => return Err(Refusal::OutsideLimits),
        };
        self.registers.link.set(up);
        Ok(())
    }
}
