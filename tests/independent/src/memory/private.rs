//! Request W10's private bytes: those that a frame brought from its seventh on.

use super::{Layout, PacketAddress, PacketNumber};
use crate::frame;
use crate::part::Part;

/// A frame's first bytes are not private.
const OPEN: usize = 6;

/// A layout with a mark at each private byte. The marks lie in a layout of their
/// own, which is granted and released like the first: so they stay where a byte
/// stays, in its page or its strip, whoever owns it next.
#[derive(Clone, Debug)]
pub struct Private<L> {
    layout: L,
    /// 1 where a byte is private, else 0.
    marks: L,
}

impl<L: Layout> Private<L> {
    /// Was the byte stored as one of a frame from its seventh on, and not
    /// written since by anything else.
    pub fn is_private(&self, packet: PacketNumber, address: PacketAddress) -> bool {
        self.marks.byte(packet, address) != 0
    }
}

/// The marks of a frame as it is stored: none at its status, its count, its first
/// six bytes and what stands behind it.
fn marks_of(image: &[u8]) -> Vec<u8> {
    let frame = frame::bytes_in(image);
    let mut marks = vec![0; image.len()];
    marks[frame.start + OPEN..frame.end].fill(1);
    marks
}

impl<L: Layout> Layout for Private<L> {
    fn new(part: Part) -> Self {
        Self {
            layout: L::new(part),
            marks: L::new(part),
        }
    }

    fn part(&self) -> Part {
        self.layout.part()
    }

    fn free_pages(&self) -> usize {
        self.layout.free_pages()
    }

    fn page_count(&self, packet: PacketNumber) -> usize {
        self.layout.page_count(packet)
    }

    fn take(&mut self, packet: PacketNumber, pages: usize) {
        self.layout.take(packet, pages);
        self.marks.take(packet, pages);
    }

    fn release(&mut self, packet: PacketNumber) {
        self.layout.release(packet);
        self.marks.release(packet);
    }

    fn byte(&self, packet: PacketNumber, address: PacketAddress) -> u8 {
        self.layout.byte(packet, address)
    }

    /// A data write, or a send's status word.
    fn set_byte(&mut self, packet: PacketNumber, address: PacketAddress, byte: u8) {
        self.layout.set_byte(packet, address, byte);
        self.marks.set_byte(packet, address, 0);
    }

    fn copy_out(&self, packet: PacketNumber, address: PacketAddress, out: &mut [u8]) {
        self.layout.copy_out(packet, address, out);
    }

    fn fill(&mut self, packet: PacketNumber, image: &[u8]) {
        self.layout.fill(packet, image);
        self.marks.fill(packet, &marks_of(image));
    }
}
