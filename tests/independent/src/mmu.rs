//! "MMU commands".

use crate::chip::ChipOn;
use crate::memory::{Layout, PacketNumber};
use crate::refusal::Refusal;

#[derive(Clone, Copy, Debug, PartialEq, Eq)]
enum Command {
    Nothing,
    /// 20h to 27h: 1 to 8 pages.
    Allocate(usize),
    FreeAll,
    RemoveRx,
    RemoveAndReleaseRx,
    Release,
    Enqueue,
    EmptyTx,
}

impl Command {
    /// "Other values: 4."
    fn decode(value: u8) -> Result<Self, Refusal> {
        Ok(match value {
            0x00 => Self::Nothing,
            0x20..=0x27 => Self::Allocate(usize::from(value - 0x20) + 1),
            0x40 => Self::FreeAll,
            0x60 => Self::RemoveRx,
            0x80 => Self::RemoveAndReleaseRx,
            0xa0 => Self::Release,
            0xc0 => Self::Enqueue,
            0xe0 => Self::EmptyTx,
            _ => return Err(Refusal::ReservedCommand),
        })
    }
}

impl<L: Layout> ChipOn<L> {
    /// "No command touches a latch."
    pub fn command(&mut self, value: u8) -> Result<(), Refusal> {
        match Command::decode(value)? {
            Command::Nothing => {}
            // "A new allocate command replaces a waiting one".
            Command::Allocate(pages) => self.allocate(pages),
            Command::FreeAll => self.free_all(),
            Command::RemoveRx => {
                self.remove_rx()?;
            }
            Command::RemoveAndReleaseRx => {
                let packet = self.remove_rx()?;
                self.give_back(packet);
            }
            Command::Release => {
                let packet = self.idle_packet()?;
                self.give_back(packet);
            }
            Command::Enqueue => {
                let packet = self.idle_packet()?;
                self.tx.push(packet);
            }
            // "E0h empties TX and completion, frees nothing", and leaves a
            // request that waits.
            Command::EmptyTx => {
                self.tx.clear();
                self.completion.clear();
            }
        }
        Ok(())
    }

    /// Grants the pages if that many are free; else "the request stays pending,
    /// the result reads 80h".
    fn allocate(&mut self, pages: usize) {
        self.registers.result = self.packets.grant(pages);
        self.registers.waiting = match self.registers.result {
            Some(_) => None,
            None => Some(pages),
        };
    }

    /// Releases a packet, and tries the request that waits, if any: it "is
    /// granted in the very step whose release leaves enough free pages".
    pub fn give_back(&mut self, packet: PacketNumber) {
        self.packets.release(packet);
        if let Some(pages) = self.registers.waiting {
            self.allocate(pages);
        }
    }

    /// "40h frees all pages, empties all FIFOs, sets the result to 80h", and
    /// drops a request that waits.
    fn free_all(&mut self) {
        self.packets.release_all();
        self.empty_fifos();
        self.registers.result = None;
        self.registers.waiting = None;
    }

    fn remove_rx(&mut self) -> Result<PacketNumber, Refusal> {
        self.rx.pop().ok_or(Refusal::RxEmpty)
    }

    /// "the packet in the packet number register ...; refusals 5, 6".
    fn idle_packet(&self) -> Result<PacketNumber, Refusal> {
        let packet = self.selected_packet().ok_or(Refusal::NotAllocated)?;
        if self.is_queued(packet) {
            return Err(Refusal::StillQueued);
        }
        Ok(packet)
    }
}
