//! Packet memory: packets by number, bytes by address, and what a chip needs of
//! the place where they lie. `Paged` is document 01's chip, `Strips` the one of
//! request W3.

mod marked;
mod paged;
mod private;
mod strips;

use std::fmt::Debug;

pub use marked::Marked;
pub use paged::{PageNumber, Paged};
pub use private::Private;
pub use strips::{Strips, STRIP_SIZE};

use crate::part::Part;

pub const PAGE_SIZE: usize = 256;
pub const MOST_PAGES: usize = 8;

/// A packet of some part. "A packet number is never a page number, nor is either
/// an address within a packet."
#[derive(Clone, Copy, Debug, PartialEq, Eq)]
pub struct PacketNumber(u8);

impl PacketNumber {
    /// None from the part's size on: no such packet is ever allocated.
    pub fn new(part: Part, number: u8) -> Option<Self> {
        (usize::from(number) < part.packets()).then_some(Self(number))
    }

    pub fn all(part: Part) -> impl Iterator<Item = Self> {
        (0..part.packets() as u8).map(Self)
    }

    pub fn get(self) -> u8 {
        self.0
    }

    fn index(self) -> usize {
        usize::from(self.0)
    }
}

/// A byte's place within its packet, 0 to 2,047.
#[derive(Clone, Copy, Debug, PartialEq, Eq)]
pub struct PacketAddress(pub u16);

impl PacketAddress {
    fn plus(self, bytes: u16) -> Self {
        Self(self.0 + bytes)
    }
}

/// Where packets' bytes lie, and how many pages each packet has. All that does
/// not ask where a byte lies is here, once for every layout.
pub trait Layout: Clone + Debug {
    /// A part's, as at power-up.
    fn new(part: Part) -> Self;

    fn part(&self) -> Part;

    fn free_pages(&self) -> usize;

    /// 1 to 8 for a packet that is allocated, else 0.
    fn page_count(&self, packet: PacketNumber) -> usize;

    /// Allocates the packet; the caller has seen that so many pages are free.
    fn take(&mut self, packet: PacketNumber, pages: usize);

    /// "Bytes of freed pages stay."
    fn release(&mut self, packet: PacketNumber);

    fn byte(&self, packet: PacketNumber, address: PacketAddress) -> u8;

    fn set_byte(&mut self, packet: PacketNumber, address: PacketAddress, byte: u8);

    /// Copies the packet's bytes from `address` on.
    fn copy_out(&self, packet: PacketNumber, address: PacketAddress, out: &mut [u8]);

    /// Fills the packet from address 0; "Later bytes of the last page stay".
    fn fill(&mut self, packet: PacketNumber, image: &[u8]);

    fn is_allocated(&self, packet: PacketNumber) -> bool {
        self.page_count(packet) > 0
    }

    fn all_free(&self) -> bool {
        self.free_pages() == self.part().pages()
    }

    /// The packet's size in bytes.
    fn size(&self, packet: PacketNumber) -> usize {
        self.page_count(packet) * PAGE_SIZE
    }

    /// "done exactly when that many are free": "the lowest unallocated number".
    fn grant(&mut self, wanted: usize) -> Option<PacketNumber> {
        if self.free_pages() < wanted {
            return None;
        }
        let packet = PacketNumber::all(self.part()).find(|&packet| !self.is_allocated(packet))?;
        self.take(packet, wanted);
        Some(packet)
    }

    fn release_all(&mut self) {
        PacketNumber::all(self.part()).for_each(|packet| self.release(packet));
    }

    /// "A word takes two bytes, lower first", each found on its own.
    fn word(&self, packet: PacketNumber, address: PacketAddress) -> u16 {
        let bytes = [address, address.plus(1)].map(|at| self.byte(packet, at));
        u16::from_le_bytes(bytes)
    }

    fn set_word(&mut self, packet: PacketNumber, address: PacketAddress, word: u16) {
        let [low, high] = word.to_le_bytes();
        self.set_byte(packet, address, low);
        self.set_byte(packet, address.plus(1), high);
    }
}
