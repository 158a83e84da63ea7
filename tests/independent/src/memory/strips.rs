//! Request W3: "each packet in its own strip of 2,048 bytes, 24 strips, and of
//! pages only how many are free and how many each packet has, 24 in sum"; of the
//! LAN91C94 18 of either.

use super::{Layout, PacketAddress, PacketNumber, MOST_PAGES, PAGE_SIZE};
use crate::part::Part;

pub const STRIP_SIZE: usize = MOST_PAGES * PAGE_SIZE;

/// The strips one after another, 49,152 bytes or 36,864, and the pages as mere
/// numbers. The strips "start at zero and keep their bytes over release and reset".
#[derive(Clone, Debug)]
pub struct Strips {
    part: Part,
    bytes: Vec<u8>,
    free: usize,
    counts: Vec<usize>,
}

impl Strips {
    /// All strips, by the packets' numbers.
    pub fn bytes(&self) -> &[u8] {
        &self.bytes
    }

    /// A packet's byte lies in its strip, at its address.
    fn place(packet: PacketNumber, address: PacketAddress) -> usize {
        STRIP_SIZE * packet.index() + usize::from(address.0)
    }
}

impl Layout for Strips {
    fn new(part: Part) -> Self {
        Self {
            part,
            bytes: vec![0; part.packets() * STRIP_SIZE],
            free: part.pages(),
            counts: vec![0; part.packets()],
        }
    }

    fn part(&self) -> Part {
        self.part
    }

    fn free_pages(&self) -> usize {
        self.free
    }

    fn page_count(&self, packet: PacketNumber) -> usize {
        self.counts[packet.index()]
    }

    fn take(&mut self, packet: PacketNumber, pages: usize) {
        self.free -= pages;
        self.counts[packet.index()] = pages;
    }

    fn release(&mut self, packet: PacketNumber) {
        self.free += std::mem::take(&mut self.counts[packet.index()]);
    }

    #[inline]
    fn byte(&self, packet: PacketNumber, address: PacketAddress) -> u8 {
        self.bytes[Self::place(packet, address)]
    }

    #[inline]
    fn set_byte(&mut self, packet: PacketNumber, address: PacketAddress, byte: u8) {
        self.bytes[Self::place(packet, address)] = byte;
    }

    fn copy_out(&self, packet: PacketNumber, address: PacketAddress, out: &mut [u8]) {
        let strip = &self.bytes[Self::place(packet, address)..];
        out.copy_from_slice(&strip[..out.len()]);
    }

    fn fill(&mut self, packet: PacketNumber, image: &[u8]) {
        let strip = &mut self.bytes[Self::place(packet, PacketAddress(0))..];
        strip[..image.len()].copy_from_slice(image);
    }
}
