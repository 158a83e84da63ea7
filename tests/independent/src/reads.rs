//! Which of a packet's bytes a record reads: request W3's "each send reads only
//! bytes written since its packet was allocated" and its "data read".

use crate::bench::{BenchOn, Record};
use crate::chip::ChipOn;
use crate::memory::{Layout, Marked, PacketAddress, PacketNumber};
use crate::registers::Width;
use crate::send::SendEnd;

/// Some bytes of a packet.
#[derive(Clone, Debug, PartialEq, Eq)]
pub struct Bytes {
    pub packet: PacketNumber,
    pub addresses: Vec<PacketAddress>,
}

impl Bytes {
    fn new(packet: PacketNumber, addresses: impl Iterator<Item = u16>) -> Self {
        Self {
            packet,
            addresses: addresses.map(PacketAddress).collect(),
        }
    }
}

impl<L: Layout> ChipOn<L> {
    /// "A send that gets past refusal 12 reads bytes 2 and 3, and, where it is
    /// done, byte c − 1 and the data by its length"; one refused with 13, 18,
    /// 19 or 14 "reads the count alone".
    fn read_by_send(&self, end: SendEnd) -> Option<Bytes> {
        let packet = self.head_to_send().ok()?;
        let count = self.byte_count(packet);
        let data = self.data_to_send(end).ok();
        let control = data.map(|_| count - 1);
        let data = 4..4 + data.unwrap_or(0) as u16;
        Some(Bytes::new(packet, (2..4).chain(data).chain(control)))
    }

    /// The byte or the word at the pointer, for a data read that is done.
    fn read_by_access(&self, width: Width, offset: u8) -> Option<Bytes> {
        let (packet, PacketAddress(first)) = self.data_read(width, offset)?;
        Some(Bytes::new(packet, first..first + width.bytes()))
    }
}

impl<L: Layout> BenchOn<L> {
    /// What a record reads of a packet, if it does. "written" or not.
    pub fn reads(&self, record: &Record) -> Option<Bytes> {
        let [kind, first, second, third, ..] = *record;
        match kind {
            1 => self.chip.read_by_access(Width::Byte, first),
            2 => self.chip.read_by_access(Width::Word, first),
            7 => self
                .chip
                .read_by_send(SendEnd::new(first, second, third).ok()?),
            _ => None,
        }
    }
}

impl<L: Layout> BenchOn<Marked<L>> {
    /// What a record reads and nobody wrote since the packet's grant, if any.
    pub fn unwritten(&self, record: &Record) -> Option<Bytes> {
        let mut bytes = self.reads(record)?;
        let packets = &self.chip.packets;
        bytes
            .addresses
            .retain(|&address| !packets.is_written(bytes.packet, address));
        (!bytes.addresses.is_empty()).then_some(bytes)
    }
}
