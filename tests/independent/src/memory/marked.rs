//! Request W3's "bytes written since its packet was allocated", noted where
//! bytes are written and packets allocated.

use super::{Layout, PacketAddress, PacketNumber, STRIP_SIZE};
use crate::part::Part;

/// What is remembered of a packet number.
#[derive(Clone, Debug)]
struct Marks {
    grants: usize,
    written: [bool; STRIP_SIZE],
    /// The bytes that the last grant found.
    old: [u8; STRIP_SIZE],
}

impl Default for Marks {
    fn default() -> Self {
        Self {
            grants: 0,
            written: [false; STRIP_SIZE],
            old: [0; STRIP_SIZE],
        }
    }
}

/// A layout with a mark at each byte that is written, be it by a data write, by
/// "a stored frame" or as "a send's status word": no other thing writes. It
/// "starts anew at each grant".
#[derive(Clone, Debug)]
pub struct Marked<L> {
    layout: L,
    marks: Vec<Marks>,
}

impl<L: Layout> Marked<L> {
    /// The layout that the marks are about.
    pub fn layout(&self) -> &L {
        &self.layout
    }

    /// Was the byte written since the packet's grant.
    pub fn is_written(&self, packet: PacketNumber, address: PacketAddress) -> bool {
        self.of(packet).written[usize::from(address.0)]
    }

    /// Where the packet was written since its grant.
    pub fn written(&self, packet: PacketNumber) -> impl Iterator<Item = PacketAddress> + '_ {
        (0..self.size(packet) as u16)
            .map(PacketAddress)
            .filter(move |&address| self.is_written(packet, address))
    }

    /// The byte that the packet's last grant found there.
    pub fn old_byte(&self, packet: PacketNumber, address: PacketAddress) -> u8 {
        self.of(packet).old[usize::from(address.0)]
    }

    /// How often the number was granted.
    pub fn grants(&self, packet: PacketNumber) -> usize {
        self.of(packet).grants
    }

    fn of(&self, packet: PacketNumber) -> &Marks {
        &self.marks[packet.index()]
    }

    fn mark(&mut self, packet: PacketNumber, address: PacketAddress, bytes: usize) {
        let first = usize::from(address.0);
        self.marks[packet.index()].written[first..first + bytes].fill(true);
    }
}

impl<L: Layout> Layout for Marked<L> {
    fn new(part: Part) -> Self {
        Self {
            layout: L::new(part),
            marks: vec![Marks::default(); part.packets()],
        }
    }

    fn part(&self) -> Part {
        self.layout.part()
    }

    fn free_pages(&self) -> usize {
        self.layout.free_pages()
    }

    fn page_count(&self, packet: PacketNumber) -> usize {
        self.layout.page_count(packet)
    }

    fn take(&mut self, packet: PacketNumber, pages: usize) {
        self.layout.take(packet, pages);
        let size = self.layout.size(packet);
        let marks = &mut self.marks[packet.index()];
        marks.grants += 1;
        marks.written.fill(false);
        self.layout
            .copy_out(packet, PacketAddress(0), &mut marks.old[..size]);
    }

    fn release(&mut self, packet: PacketNumber) {
        self.layout.release(packet);
    }

    fn byte(&self, packet: PacketNumber, address: PacketAddress) -> u8 {
        self.layout.byte(packet, address)
    }

    fn set_byte(&mut self, packet: PacketNumber, address: PacketAddress, byte: u8) {
        self.layout.set_byte(packet, address, byte);
        self.mark(packet, address, 1);
    }

    fn copy_out(&self, packet: PacketNumber, address: PacketAddress, out: &mut [u8]) {
        self.layout.copy_out(packet, address, out);
    }

    fn fill(&mut self, packet: PacketNumber, image: &[u8]) {
        self.layout.fill(packet, image);
        self.mark(packet, PacketAddress(0), image.len());
    }
}
