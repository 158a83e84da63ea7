//! MMU commands: their answers, and what they meet.

use super::tables::{Part, Tables};
use super::{answer_name, in_pieces, Seen};
use crate::chip::Chip;
use crate::memory::{Layout, PacketNumber};
use crate::refusal::Refusal;

pub fn count(tables: &mut Tables, seen: &Seen, value: u8) {
    let name = command_name(value);
    tables.count(Part::Commands, &name, answer_name(seen.answer));
    let met = match value {
        0x20..=0x27 => allocation_meets(seen),
        0x40 | 0xe0 => clearing_meets(&seen.before.chip),
        0x60 | 0x80 => removal_meets(seen),
        0xa0 | 0xc0 => packet_meets(seen),
        _ => Vec::new(),
    };
    for column in met {
        tables.count(Part::CommandStates, &name, column);
    }
}

pub fn command_name(value: u8) -> String {
    match value {
        0x00 | 0x20..=0x27 | 0x40 | 0x60 | 0x80 | 0xa0 | 0xc0 | 0xe0 => format!("{value:02x}h"),
        _ => "reserved".into(),
    }
}

/// The names of those that hold.
pub fn those(met: &[(bool, &'static str)]) -> Vec<&'static str> {
    let holding = met.iter().filter(|(holds, _)| *holds);
    holding.map(|(_, name)| *name).collect()
}

/// Granted or not, and whether number and pages are told apart by it.
fn allocation_meets(seen: &Seen) -> Vec<&'static str> {
    let (before, after) = seen.chips();
    let held = before.registers.result.is_some();
    let Some(packet) = after.registers.result else {
        return those(&[(true, "80h"), (held, "80h after a result")]);
    };
    let pages = after.packets.pages(packet);
    those(&[
        (true, "granted"),
        (pages[0].get() != packet.get(), "number is no page"),
        (in_pieces(pages), "in pieces"),
    ])
}

fn clearing_meets(before: &Chip) -> Vec<&'static str> {
    those(&[
        (!before.packets.all_free(), "pages"),
        (before.registers.result.is_some(), "result"),
        (before.registers.waiting.is_some(), "waiting request"),
        (!before.rx.is_empty(), "RX"),
        (!before.tx.is_empty(), "TX"),
        (!before.completion.is_empty(), "completion"),
    ])
}

fn removal_meets(seen: &Seen) -> Vec<&'static str> {
    let before = &seen.before.chip;
    let Some(head) = before.rx.head() else {
        return Vec::new();
    };
    let other = before
        .selected_packet()
        .is_some_and(|packet| packet != head);
    let page = before.packets.pages(head)[0].get();
    those(&[
        (before.rx.len() == 1, "the last"),
        (before.rx.len() > 1, "more behind"),
        (other, "packet register names another"),
        (page != head.get(), "number is no page"),
    ])
}

/// A0h and C0h: what packet the packet number register names.
fn packet_meets(seen: &Seen) -> Vec<&'static str> {
    let before = &seen.before.chip;
    let number = before.registers.packet_number;
    let in_range = PacketNumber::new(before.part(), number);
    let within = |queue: &crate::fifo::Fifo| in_range.is_some_and(|packet| queue.contains(packet));
    match seen.answer {
        Ok(_) => those(&[
            (within(&before.completion), "in completion"),
            (before.tx.is_empty(), "TX empty"),
            (!before.tx.is_empty(), "TX not empty"),
            (
                in_range.map(|packet| before.packets.page_count(packet)) > Some(1),
                "several pages",
            ),
        ]),
        Err(Refusal::StillQueued) => those(&[
            (within(&before.rx), "still in RX"),
            (within(&before.tx), "still in TX"),
        ]),
        Err(_) => those(&[
            (in_range.is_none(), "no packet has the number"),
            (in_range.is_some(), "packet is free"),
            (within(&before.completion), "freed, in completion"),
        ]),
    }
}
