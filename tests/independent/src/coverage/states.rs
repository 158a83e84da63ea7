//! What the chip is like after a record.

use super::in_pieces;
use super::tables::{Part, Tables};
use crate::chip::{control, ephsr, interrupt, Chip};
use crate::memory::{Layout, PacketNumber};

pub fn count(tables: &mut Tables, chip: &Chip) {
    count_states(tables, chip);
    count_line(tables, chip);
    count_eph(tables, chip);
}

fn count_states(tables: &mut Tables, chip: &Chip) {
    let status = chip.interrupt_status();
    let states = [
        ("no page free", chip.packets.free_pages() == 0),
        ("a request waits", chip.registers.waiting.is_some()),
        ("8 or more in RX", chip.rx.len() >= 8),
        ("3 or more in TX", chip.tx.len() >= 3),
        ("completion full", chip.completion.is_full()),
        ("completion names a freed", names_freed(chip)),
        (
            "EPHSR bit 12 set",
            chip.registers.ephsr & ephsr::COUNTER_ROLL != 0,
        ),
        ("link up", chip.registers.link.up),
        ("link changed", chip.registers.link.changed),
        ("RX_ABORT set", chip.registers.rcr & 1 != 0),
        ("RX_OVRN set", chip.registers.rx_overrun),
        ("EPH in the status", status & interrupt::EPH != 0),
        ("interrupt line up", chip.line_is_up()),
        ("a packet in pieces", has_pieces(chip)),
    ];
    for (name, _) in states.into_iter().filter(|(_, holds)| *holds) {
        tables.count(Part::States, name, "records");
    }
}

/// Each status bit with its mask bit alone, and without it.
fn count_line(tables: &mut Tables, chip: &Chip) {
    let (status, mask) = (chip.interrupt_status(), chip.registers.mask);
    for bit in 0..6 {
        let own = 1 << bit;
        let column = match (status & own != 0, mask & own != 0) {
            (true, true) if mask == own => "up, no other mask bit",
            (true, true) if status == own => "up, no other status bit",
            (true, false) if mask != 0 && status & mask == 0 => "down, masked",
            (false, true) if status != 0 && mask == own => "down, not in the status",
            _ => continue,
        };
        tables.count(Part::Line, format!("bit {bit}"), column);
    }
    if mask != 0 && mask & 0x3f == 0 {
        tables.count(Part::Line, "bits 6 and 7", "down");
    }
}

/// Each bit of EPHSR that EPH looks at, or a change of the link, alone, under each
/// choice of control bits.
fn count_eph(tables: &mut Tables, chip: &Chip) {
    let now = &chip.registers;
    let looked_at = ephsr::ERRORS | ephsr::TX_SUC | ephsr::COUNTER_ROLL;
    let row = match now.ephsr & looked_at {
        0 if now.link.changed => "link changed",
        ephsr::TX_SUC if now.link.changed => "link changed, beside bit 0",
        _ if now.link.changed => return,
        0 if now.link.up => "link up, no change",
        ephsr::UNDERRUN => "bit 15",
        ephsr::COUNTER_ROLL => "bit 12",
        ephsr::LOST_CARRIER => "bit 10",
        ephsr::LATE_COLLISION => "bit 9",
        ephsr::SQET => "bit 5",
        ephsr::SIXTEEN_COLLISIONS => "bit 4",
        bits if bits == ephsr::SQET | ephsr::TX_SUC => "bit 5 beside bit 0",
        bits if bits == ephsr::COUNTER_ROLL | ephsr::TX_SUC => "bit 12 beside bit 0",
        _ => return,
    };
    tables.count(Part::Eph, row, enabled_name(now.control));
}

/// Which of the control bits are set that let EPH be raised.
fn enabled_name(control: u16) -> &'static str {
    let enabled = [
        control::TX_ERROR_ENABLE,
        control::COUNTER_ENABLE,
        control::LINK_ENABLE,
    ];
    match enabled.map(|bit| control & bit != 0) {
        [false, false, false] => "none",
        [true, false, false] => "5",
        [false, true, false] => "6",
        [false, false, true] => "7",
        [true, true, false] => "5 and 6",
        [true, false, true] => "5 and 7",
        [false, true, true] => "6 and 7",
        [true, true, true] => "5, 6 and 7",
    }
}

fn names_freed(chip: &Chip) -> bool {
    chip.completion
        .head()
        .is_some_and(|packet| !chip.packets.is_allocated(packet))
}

fn has_pieces(chip: &Chip) -> bool {
    PacketNumber::all(chip.part()).any(|packet| in_pieces(chip.packets.pages(packet)))
}
