//! The strip chip of request W3 beside the paged one: what records read of
//! bytes written since the grant and of others, and whether old bytes lie under
//! them by which a chip would betray itself that reads these.

use super::sends::put_out_name;
use super::tables::{Part, Tables};
use super::{answer_name, Seen};
use crate::bench::{Answer, BenchOn, Record};
use crate::memory::{Layout, Marked, PacketAddress, PacketNumber, Paged, Strips};
use crate::reads::Bytes;

/// The two chips, each with its marks.
#[derive(Default)]
pub struct History {
    paged: BenchOn<Marked<Paged>>,
    strips: BenchOn<Marked<Strips>>,
}

pub fn count(tables: &mut Tables, history: &mut History, seen: &Seen) {
    let reads = history.paged.reads(seen.record);
    let unwritten = history.paged.unwritten(seen.record).is_some();
    let differs = reads.as_ref().is_some_and(|bytes| history.differs(bytes));
    if let Some(bytes) = reads {
        count_reads(tables, seen, unwritten);
        if differs && !unwritten {
            tables.count(
                Part::Strips,
                "over other old bytes",
                over_name(seen, &bytes),
            );
        }
    }
    let granted = history.packets(|history, packet| history.grants(packet));
    let allocated = history.packets(|history, packet| history.is_allocated(packet));
    let strip_answer = history.step(seen.record);
    for (index, packet) in PacketNumber::all(seen.after.chip.part()).enumerate() {
        if history.grants(packet) > granted[index] {
            count_grant(tables, history, seen, packet, allocated[index]);
        }
    }
    if seen.answer != strip_answer {
        tables.count(Part::Strips, "other answer", kind_name(seen));
    } else if history.puts_out_other_bytes(seen) {
        tables.count(Part::Strips, "other bytes put out", kind_name(seen));
    }
}

impl History {
    /// Both obey; the answer is that of the strip chip.
    fn step(&mut self, record: &Record) -> Answer {
        let _ = self.paged.step(record);
        self.strips.step(record)
    }

    /// Do the two differ in what the record just answered alike has put out.
    fn puts_out_other_bytes(&self, seen: &Seen) -> bool {
        let (kind, answer) = (seen.record[0], seen.answer);
        self.paged.put_out(kind, answer) != self.strips.put_out(kind, answer)
    }

    fn packets<T>(&self, of: impl Fn(&Self, PacketNumber) -> T) -> Vec<T> {
        PacketNumber::all(self.paged.chip.part())
            .map(|packet| of(self, packet))
            .collect()
    }

    fn grants(&self, packet: PacketNumber) -> usize {
        self.paged.chip.packets.grants(packet)
    }

    fn is_allocated(&self, packet: PacketNumber) -> bool {
        self.paged.chip.packets.is_allocated(packet)
    }

    /// Did page and strip hold another byte there when the packet was granted.
    fn differs_at(&self, packet: PacketNumber, address: PacketAddress) -> bool {
        let (paged, strips) = (&self.paged.chip.packets, &self.strips.chip.packets);
        paged.old_byte(packet, address) != strips.old_byte(packet, address)
    }

    fn differs(&self, bytes: &Bytes) -> bool {
        let mut addresses = bytes.addresses.iter();
        addresses.any(|&address| self.differs_at(bytes.packet, address))
    }

    /// Any of a packet's bytes.
    fn differs_somewhere(&self, packet: PacketNumber) -> bool {
        let size = self.paged.chip.packets.size(packet) as u16;
        (0..size).any(|address| self.differs_at(packet, PacketAddress(address)))
    }
}

fn kind_name(seen: &Seen) -> &'static str {
    match seen.record[0] {
        7 => "send",
        1 | 2 => "read",
        _ => "another",
    }
}

fn count_reads(tables: &mut Tables, seen: &Seen, unwritten: bool) {
    let column = match unwritten {
        true => "an unwritten byte",
        false => "written bytes only",
    };
    let row = match seen.record[0] {
        7 => format!("send {}", answer_name(seen.answer).trim()),
        _ => "data read".into(),
    };
    tables.count(Part::Strips, row, column);
}

/// What read bytes under which other old ones lie in page and strip.
fn over_name(seen: &Seen, bytes: &Bytes) -> String {
    match (seen.record[0], seen.answer) {
        (7, Ok(_)) => match seen.before.chip.data_length(bytes.packet) {
            Ok(data) => format!("send {}", put_out_name(seen, data)),
            Err(_) => "send".into(),
        },
        (7, Err(_)) => "count alone".into(),
        _ if bytes.addresses[0].0 % 256 == 255 && bytes.addresses.len() == 2 => {
            "word across a border".into()
        }
        _ => "data read".into(),
    }
}

fn count_grant(
    tables: &mut Tables,
    history: &History,
    seen: &Seen,
    packet: PacketNumber,
    was_allocated: bool,
) {
    let row = match seen.record[0] {
        6 => "number of a frame",
        7 => "number granted by a send",
        _ => "number granted",
    };
    let column = match history.grants(packet) {
        1 => "new",
        _ if history.differs_somewhere(packet) => "again, other old bytes",
        _ => "again",
    };
    tables.count(Part::Strips, row, column);
    if was_allocated {
        tables.count(Part::Strips, row, "in the step that released it");
    }
}
