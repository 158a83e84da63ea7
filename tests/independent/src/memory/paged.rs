//! "24 pages of 256 bytes, 6,144 in all", or "18 pages, .. 4,608 bytes", and who
//! owns which page.

use super::{Layout, PacketAddress, PacketNumber, MOST_PAGES, PAGE_SIZE};
use crate::part::Part;

/// A page of the packet memory.
#[derive(Clone, Copy, Debug, Default, PartialEq, Eq)]
pub struct PageNumber(u8);

impl PageNumber {
    fn start(self) -> usize {
        usize::from(self.0) * PAGE_SIZE
    }

    pub fn get(self) -> u8 {
        self.0
    }
}

/// Which of a packet's pages holds a byte, and where in that page.
fn split(address: PacketAddress) -> (usize, usize) {
    let address = usize::from(address.0);
    (address / PAGE_SIZE, address % PAGE_SIZE)
}

/// The pages of one packet, in ascending order; none when it is not allocated.
#[derive(Clone, Copy, Debug, Default)]
struct PageList {
    pages: [PageNumber; MOST_PAGES],
    len: usize,
}

impl PageList {
    fn as_slice(&self) -> &[PageNumber] {
        &self.pages[..self.len]
    }

    fn push(&mut self, page: PageNumber) {
        self.pages[self.len] = page;
        self.len += 1;
    }
}

/// "At power-up the memory is 6,144 zero bytes", or 4,608. Nothing ever clears it.
#[derive(Clone, Debug)]
struct Memory(Vec<u8>);

impl Memory {
    fn new(part: Part) -> Self {
        Self(vec![0; part.pages() * PAGE_SIZE])
    }

    fn page(&self, page: PageNumber) -> &[u8] {
        &self.0[page.start()..][..PAGE_SIZE]
    }

    fn page_mut(&mut self, page: PageNumber) -> &mut [u8] {
        &mut self.0[page.start()..][..PAGE_SIZE]
    }
}

/// The memory, and which pages each packet owns.
#[derive(Clone, Debug)]
pub struct Paged {
    part: Part,
    lists: Vec<PageList>,
    memory: Memory,
}

impl Paged {
    pub fn pages(&self, packet: PacketNumber) -> &[PageNumber] {
        self.lists[packet.index()].as_slice()
    }

    /// The whole memory, page after page.
    pub fn bytes(&self) -> &[u8] {
        &self.memory.0
    }

    fn place(&self, packet: PacketNumber, address: PacketAddress) -> usize {
        let (page, offset) = split(address);
        self.pages(packet)[page].start() + offset
    }

    fn is_free(&self, page: PageNumber) -> bool {
        let owns = |list: &PageList| list.as_slice().contains(&page);
        !self.lists.iter().any(owns)
    }
}

impl Layout for Paged {
    fn new(part: Part) -> Self {
        Self {
            part,
            lists: vec![PageList::default(); part.packets()],
            memory: Memory::new(part),
        }
    }

    fn part(&self) -> Part {
        self.part
    }

    fn free_pages(&self) -> usize {
        self.part.pages() - self.lists.iter().map(|list| list.len).sum::<usize>()
    }

    fn page_count(&self, packet: PacketNumber) -> usize {
        self.lists[packet.index()].len
    }

    /// "pages are the lowest free ones".
    fn take(&mut self, packet: PacketNumber, pages: usize) {
        let mut list = PageList::default();
        (0..self.part.pages() as u8)
            .map(PageNumber)
            .filter(|&page| self.is_free(page))
            .take(pages)
            .for_each(|page| list.push(page));
        self.lists[packet.index()] = list;
    }

    fn release(&mut self, packet: PacketNumber) {
        self.lists[packet.index()] = PageList::default();
    }

    #[inline]
    fn byte(&self, packet: PacketNumber, address: PacketAddress) -> u8 {
        self.memory.0[self.place(packet, address)]
    }

    #[inline]
    fn set_byte(&mut self, packet: PacketNumber, address: PacketAddress, byte: u8) {
        let place = self.place(packet, address);
        self.memory.0[place] = byte;
    }

    /// Page by page.
    fn copy_out(&self, packet: PacketNumber, address: PacketAddress, out: &mut [u8]) {
        let (first, mut offset) = split(address);
        let mut rest = out;
        for page in &self.pages(packet)[first..] {
            let take = rest.len().min(PAGE_SIZE - offset);
            let (now, later) = rest.split_at_mut(take);
            now.copy_from_slice(&self.memory.page(*page)[offset..offset + take]);
            rest = later;
            offset = 0;
        }
    }

    /// Page by page, each with its part of the image.
    fn fill(&mut self, packet: PacketNumber, image: &[u8]) {
        let pages = self.lists[packet.index()].as_slice();
        for (page, part) in pages.iter().zip(image.chunks(PAGE_SIZE)) {
            self.memory.page_mut(*page)[..part.len()].copy_from_slice(part);
        }
    }
}
