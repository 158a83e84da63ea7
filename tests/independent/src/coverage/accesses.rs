//! Accesses: which register they reach, and what an effect of theirs meets.

use super::tables::{Part, Tables};
use super::{commands, data, Seen};
use crate::chip::{ephsr, interrupt, rcr, tcr, Chip, Registers};
use crate::memory::Layout;

pub fn count(tables: &mut Tables, seen: &Seen) {
    let [kind, offset, value, ..] = *seen.record;
    let bank = seen.before.chip.registers.bank;
    let way = ["read 8", "read 16", "write 8", "write 16"][usize::from(kind - 1)];
    let place = match offset {
        0..=15 => format!("bank {bank} offset {offset:x}"),
        _ => format!("bank {bank} above f"),
    };
    tables.count(Part::Registers, place, way);
    let word_is_odd = kind % 2 == 0 && offset % 2 == 1;
    match (bank, offset) {
        (2, 0) if kind > 2 => commands::count(tables, seen, value),
        (2, 0x8..=0xb) if !word_is_odd => data::count(tables, seen, way),
        _ if seen.answer.is_ok() => count_effect(tables, seen, bank),
        _ => {}
    }
}

fn count_effect(tables: &mut Tables, seen: &Seen, bank: u8) {
    let [kind, offset, value, ..] = *seen.record;
    match (bank, offset & !1, kind > 2) {
        (0, 0x0, true) => count_tcr(tables, seen),
        (0, 0x4, true) => count_rcr(tables, seen),
        (0, 0x6, false) => count_ecr(tables, seen),
        (2, 0xc, true) => count_acknowledge(tables, seen),
        (2, 0x2, true) if value > 63 => effect(tables, seen, "packet number", "above 63"),
        (_, 0xe, true) if value > 7 => effect(tables, seen, "bank", "above 7"),
        _ => {}
    }
}

/// Counts under the register and the bytes of it that the access reaches.
fn effect(tables: &mut Tables, seen: &Seen, register: &str, column: impl Into<String>) {
    let [kind, offset, ..] = *seen.record;
    let bytes = match (kind % 2, offset % 2) {
        (0, _) => "word",
        (_, 0) => "low byte",
        _ => "high byte",
    };
    tables.count(Part::Effects, format!("{register} {bytes}"), column);
}

/// Which bits of EPHSR a write of TCR clears, or leaves.
fn count_tcr(tables: &mut Tables, seen: &Seen) {
    let (before, after) = seen.chips();
    let held = before.registers.ephsr & (ephsr::ERRORS | ephsr::TX_SUC);
    let enabled = match after.registers.tcr & tcr::TXENA {
        0 => "leaves",
        _ => "clears",
    };
    for bit in (0..16).filter(|bit| held >> bit & 1 != 0) {
        effect(tables, seen, "TCR", format!("{enabled} {bit}"));
    }
}

/// What becomes of RX_ABORT, or a reset.
fn count_rcr(tables: &mut Tables, seen: &Seen) {
    let [_, offset, value, ..] = *seen.record;
    let (before, after) = seen.chips();
    if after.registers.rcr & rcr::SOFT_RESET != 0 {
        effect(tables, seen, "RCR", "resets");
        return count_reset(tables, before);
    }
    let abort = |chip: &Chip| chip.registers.rcr & rcr::RX_ABORT != 0;
    let asked = offset % 2 == 0 && value & 1 != 0;
    match (abort(before), abort(after)) {
        (true, false) => effect(tables, seen, "RCR", "clears RX_ABORT"),
        (true, true) => effect(tables, seen, "RCR", "keeps RX_ABORT"),
        (false, _) if asked => effect(tables, seen, "RCR", "does not set RX_ABORT"),
        (false, _) => {}
    }
}

/// What a soft reset finds set, register by register.
fn count_reset(tables: &mut Tables, before: &Chip) {
    let now = &before.registers;
    let fresh = Registers::default();
    let set = [
        ("TCR", now.tcr != 0),
        ("EPHSR", now.ephsr != 0),
        ("RCR", now.rcr != 0),
        ("ECR", now.ecr != 0),
        ("reserved", now.reserved != 0),
        ("station", now.station != fresh.station),
        ("control", now.control != 0),
        ("packet number", now.packet_number != 0),
        ("result", now.result.is_some()),
        ("waiting request", now.waiting.is_some()),
        ("pointer", now.pointer != fresh.pointer),
        ("TX EMPTY clear", !now.tx_empty),
        ("RX_OVRN", now.rx_overrun),
        ("mask", now.mask != 0),
        ("table", now.multicast != fresh.multicast),
        ("link up", now.link.up),
        ("link changed", now.link.changed),
        ("pages", !before.packets.all_free()),
        ("RX", !before.rx.is_empty()),
        ("TX", !before.tx.is_empty()),
        ("completion", !before.completion.is_empty()),
        (
            "memory",
            before.packets.bytes().iter().any(|&byte| byte != 0),
        ),
    ];
    for (name, _) in set.into_iter().filter(|(_, holds)| *holds) {
        tables.count(Part::Reset, name, "set");
    }
}

fn count_ecr(tables: &mut Tables, seen: &Seen) {
    let now = &seen.before.chip.registers;
    if now.ecr != 0 {
        effect(tables, seen, "ECR", "clears it");
    }
    if now.ephsr & ephsr::COUNTER_ROLL != 0 {
        effect(tables, seen, "ECR", "clears bit 12");
    }
}

/// What each bit of an acknowledge meets.
fn count_acknowledge(tables: &mut Tables, seen: &Seen) {
    let [_, offset, value, ..] = *seen.record;
    let before = &seen.before.chip;
    if offset % 2 == 1 {
        return effect(tables, seen, "mask", "alone");
    }
    let completion = match before.completion.len() {
        0 => "completion, none",
        1 => "completion, the last",
        _ => "completion, more behind",
    };
    let idle = interrupt::RX | interrupt::ALLOCATION | interrupt::EPH;
    let met = [
        (value & interrupt::COMPLETION != 0, completion),
        (
            value & interrupt::TX_EMPTY != 0 && before.registers.tx_empty,
            "TX EMPTY",
        ),
        (
            value & interrupt::RX_OVERRUN != 0 && before.registers.rx_overrun,
            "RX_OVRN",
        ),
        (
            before.interrupt_status() & idle & value != 0,
            "bits without effect",
        ),
        (value == 0, "nothing"),
    ];
    for (_, column) in met.into_iter().filter(|(holds, _)| *holds) {
        effect(tables, seen, "acknowledge", column);
    }
}
