//! "Three FIFOs of packet numbers: RX, TX, and completion (at most 24 entries)",
//! or 18.

use crate::memory::PacketNumber;
use crate::part::Part;

/// RX and TX never hold a packet twice, so as many places as there are packets
/// serve all three.
#[derive(Clone, Debug)]
pub struct Fifo {
    entries: Vec<PacketNumber>,
    places: usize,
}

impl Fifo {
    /// An empty one of the part.
    pub fn new(part: Part) -> Self {
        let places = part.packets();
        Self {
            entries: Vec::with_capacity(places),
            places,
        }
    }

    pub fn head(&self) -> Option<PacketNumber> {
        self.entries.first().copied()
    }

    /// The numbers in it, head first.
    pub fn entries(&self) -> impl Iterator<Item = PacketNumber> + '_ {
        self.entries.iter().copied()
    }

    pub fn len(&self) -> usize {
        self.entries.len()
    }

    pub fn is_empty(&self) -> bool {
        self.entries.is_empty()
    }

    pub fn is_full(&self) -> bool {
        self.entries.len() == self.places
    }

    pub fn contains(&self, packet: PacketNumber) -> bool {
        self.entries.contains(&packet)
    }

    /// Appends; the caller has seen that there is room.
    pub fn push(&mut self, packet: PacketNumber) {
        self.entries.push(packet);
    }

    /// Removes the head, if any.
    pub fn pop(&mut self) -> Option<PacketNumber> {
        let head = self.head()?;
        self.entries.remove(0);
        Some(head)
    }

    pub fn clear(&mut self) {
        self.entries.clear();
    }

    /// What the FIFO ports show: the head, "80h when empty".
    pub fn port(&self) -> u8 {
        self.head().map_or(0x80, PacketNumber::get)
    }
}
