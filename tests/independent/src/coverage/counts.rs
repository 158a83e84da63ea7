//! Byte counts of the packets sent: where they stand beside the limits, and
//! what the value of a refusal has to be told from.

use super::tables::{Part, Tables};
use super::Seen;
use crate::bench::numbers;
use crate::chip::Chip;
use crate::memory::{Layout, PacketNumber};

/// What came before, for a record shows a single step.
#[derive(Default)]
pub struct History {
    /// The packets in TX whose count has been usable there.
    usable: Vec<PacketNumber>,
    /// The packet and the count that a send looked at last.
    last: Option<(PacketNumber, u16)>,
}

pub fn count(tables: &mut Tables, history: &mut History, seen: &Seen) {
    if seen.record[0] == 7 {
        count_send(tables, history, seen);
    }
    history.note(&seen.after.chip);
}

/// A send that looks at the count: done, or refused by it.
fn count_send(tables: &mut Tables, history: &mut History, seen: &Seen) {
    let chip = &seen.before.chip;
    let number = numbers(seen.answer).0;
    let (Some(packet), 0 | 13 | 18 | 19) = (chip.tx.head(), number) else {
        return;
    };
    let count = chip.byte_count(packet);
    let place = place_name(count.into(), chip.packets.size(packet));
    tables.count(Part::PutOut, "byte count", place);
    if number != 0 {
        let row = format!("send {number}");
        tables.count(Part::Counts, &row, value_name(count));
        for column in history.names(packet, count) {
            tables.count(Part::Counts, &row, column);
        }
    }
    history.last = Some((packet, count));
}

/// Either side of what the byte count must be.
fn place_name(count: usize, size: usize) -> String {
    let place = match count {
        0 | 10..=13 => return count.to_string(),
        _ if count == size => return "all of the pages".into(),
        _ if count == size + 1 => return "one above the pages".into(),
        _ if count == size + 2 => return "two above the pages".into(),
        1..10 => "under 10",
        _ if count < size => "within the pages",
        _ => "above the pages",
    };
    let odd = if count % 2 == 1 { "odd " } else { "" };
    format!("{odd}{place}")
}

/// How much of a word the value takes.
fn value_name(count: u16) -> &'static str {
    match count {
        0 => "value 0",
        1..0x100 => "value up to ff",
        0x100..0x800 => "value up to 7ff",
        0x800..0x8000 => "value up to 7fff",
        0x8000.. => "value up to ffff",
    }
}

impl History {
    /// Which other values a refused count could be taken for.
    fn names(&self, packet: PacketNumber, count: u16) -> Vec<&'static str> {
        let mut names = Vec::new();
        if self.usable.contains(&packet) {
            names.push("was usable in TX");
        }
        match self.last {
            Some((_, last)) if last == count => {}
            Some((other, _)) if other == packet => names.push("another count before"),
            Some(_) => names.push("another packet before"),
            None => {}
        }
        names
    }

    fn note(&mut self, chip: &Chip) {
        self.usable.retain(|&packet| chip.tx.contains(packet));
        let usable = |packet: &PacketNumber| chip.data_length(*packet).is_ok();
        for packet in chip.tx.entries().filter(usable) {
            if !self.usable.contains(&packet) {
                self.usable.push(packet);
            }
        }
    }
}
