//! The link: what it meets, what its events and a write of control do to EPH,
//! and where it shows.

use super::commands::those;
use super::tables::{Part, Tables};
use super::Seen;
use crate::chip::{control, ephsr, interrupt, rcr, tcr, Chip};
use crate::link::Link;
use crate::memory::{Layout, PacketNumber};
use crate::places::FREE_ALL;
use crate::registers::Width;

/// What came before, for a record shows a single step.
#[derive(Default)]
pub struct History {
    /// The packet that was sent last, and whether the link was up then.
    sent: Option<(PacketNumber, bool)>,
}

pub fn count(tables: &mut Tables, history: &mut History, seen: &Seen) {
    if let Some(event) = event_name(seen) {
        let link = seen.before.chip.registers.link;
        tables.count(Part::Link, &event, state_name(link));
        for column in effects(seen) {
            tables.count(Part::LinkEffects, &event, column);
        }
    }
    count_shown(tables, history, seen);
    history.note(seen);
}

fn state_name(link: Link) -> &'static str {
    match (link.up, link.changed) {
        (false, false) => "down",
        (false, true) => "down, changed",
        (true, false) => "up",
        (true, true) => "up, changed",
    }
}

fn up_name(link: Link) -> &'static str {
    match link.up {
        true => "up",
        false => "down",
    }
}

/// What a record does of which a rule says that it sets, keeps or forgets.
fn event_name(seen: &Seen) -> Option<String> {
    let [kind, offset, value, ..] = *seen.record;
    let bank = seen.before.chip.registers.bank;
    Some(match (kind, bank, offset) {
        (8, ..) => link_name(seen).into(),
        (7, ..) => send_name(seen).into(),
        (6, ..) => frame_name(seen).into(),
        (1..=4, ..) if seen.answer.is_err() => return None,
        (3 | 4, 1, 0xc | 0xd) => format!("control {}", bytes_name(seen)),
        (3 | 4, 0, 0x4 | 0x5) if resets(seen) => format!("soft reset, {}", bytes_name(seen)),
        (3 | 4, 0, 0x0 | 0x1) => tcr_name(seen).into(),
        (3 | 4, 2, 0x0) if value == FREE_ALL => "40h".into(),
        (3 | 4, 2, 0x0) => "another command".into(),
        (3 | 4, 2, 0xc) if value & interrupt::EPH != 0 => "acknowledge of EPH".into(),
        (3, 2, 0xd) => "mask".into(),
        (1 | 2, 0, 0x6 | 0x7) => ecr_name(seen).into(),
        (1 | 2, 1, 0xc | 0xd) => "control read".into(),
        (1 | 2, 2, 0xc) => "status read".into(),
        _ => return None,
    })
}

fn link_name(seen: &Seen) -> &'static str {
    match (seen.answer, seen.record[1]) {
        (Err(_), 2) => "refused, byte 1 is 2",
        (Err(_), _) => "refused, byte 1 above 2",
        (Ok(_), 0) => "set down",
        (Ok(_), _) => "set up",
    }
}

fn send_name(seen: &Seen) -> &'static str {
    match seen.answer {
        Err(_) => "refused send",
        Ok(_) if seen.after.chip.registers.ephsr & ephsr::TX_SUC == 0 => "failed send",
        Ok(_) => "good send",
    }
}

fn frame_name(seen: &Seen) -> &'static str {
    match seen.answer {
        Ok(0) => "frame stored",
        _ => "frame not stored",
    }
}

/// Which bytes of a register the access reaches.
fn bytes_name(seen: &Seen) -> &'static str {
    let [kind, offset, ..] = *seen.record;
    match (kind % 2, offset % 2) {
        (0, _) => "word",
        (_, 0) => "low byte",
        _ => "high byte",
    }
}

fn resets(seen: &Seen) -> bool {
    seen.after.chip.registers.rcr & rcr::SOFT_RESET != 0
}

/// Does the write clear bits of EPHSR.
fn tcr_name(seen: &Seen) -> &'static str {
    let (before, after) = seen.chips();
    let held = before.registers.ephsr & (ephsr::ERRORS | ephsr::TX_SUC) != 0;
    match held && after.registers.tcr & tcr::TXENA != 0 {
        true => "TCR write that clears",
        false => "TCR write",
    }
}

/// Does the read clear bit 12 of EPHSR.
fn ecr_name(seen: &Seen) -> &'static str {
    match seen.before.chip.registers.ephsr & ephsr::COUNTER_ROLL {
        0 => "ECR read",
        _ => "ECR read that clears bit 12",
    }
}

/// What becomes of EPH: by a link event, and by a write of control.
fn effects(seen: &Seen) -> Vec<&'static str> {
    let [kind, offset, ..] = *seen.record;
    match (kind, seen.before.chip.registers.bank, offset) {
        (8, ..) => event_effects(seen),
        (3 | 4, 1, 0xc | 0xd) => control_effects(seen),
        _ => Vec::new(),
    }
}

fn eph(chip: &Chip) -> bool {
    chip.interrupt_status() & interrupt::EPH != 0
}

fn enabled(chip: &Chip) -> bool {
    chip.registers.control & control::LINK_ENABLE != 0
}

fn changed(chip: &Chip) -> bool {
    chip.registers.link.changed
}

fn event_effects(seen: &Seen) -> Vec<&'static str> {
    let (before, after) = seen.chips();
    let in_vain = !eph(after);
    those(&[
        (!eph(before) && eph(after), "raises EPH"),
        (changed(before) && enabled(before), "EPH was up by a change"),
        (
            in_vain && changed(after) && !enabled(after),
            "a change, bit 7 clear",
        ),
        (
            in_vain && !changed(after) && enabled(after),
            "no change, bit 7 set",
        ),
        (
            !before.line_is_up() && after.line_is_up(),
            "raises the line",
        ),
        (!seen.before.gathered.is_empty(), "wire bytes gathered"),
    ])
}

fn control_effects(seen: &Seen) -> Vec<&'static str> {
    let (before, after) = seen.chips();
    let raised = changed(before) && enabled(before);
    those(&[
        (eph(before) && !eph(after), "EPH falls"),
        (
            changed(before) && !enabled(before) && enabled(after),
            "sets bit 7 after a change",
        ),
        (raised && enabled(after), "bit 7 was set and stays"),
        (raised && !enabled(after), "bit 7 was set and goes"),
    ])
}

/// Where the link shows: in EPHSR, in the status word of a send, and in that
/// word when it is read.
fn count_shown(tables: &mut Tables, history: &History, seen: &Seen) {
    let [kind, offset, ..] = *seen.record;
    let now = &seen.before.chip.registers;
    if seen.answer.is_err() {
        return;
    }
    match (kind, now.bank, offset) {
        (1 | 2, 0, 0x2 | 0x3) => {
            let row = format!("EPHSR {}", bytes_name(seen));
            let beside = if now.ephsr == 0 { "" } else { ", other bits" };
            let column = format!("{}{beside}", up_name(now.link));
            tables.count(Part::LinkShown, row, column);
        }
        (7, ..) => {
            let row = format!("status of a {}", send_name(seen));
            tables.count(Part::LinkShown, row, up_name(now.link));
        }
        (1 | 2, ..) => {
            if let Some(then) = history.status_read(seen) {
                let column = match then == now.link.up {
                    true => "link as then",
                    false => "link not as then",
                };
                let row = if then { "status up" } else { "status down" };
                tables.count(Part::LinkShown, format!("{row}, read"), column);
            }
        }
        _ => {}
    }
}

impl History {
    /// Was the link up at the send whose status word, with its bit 14, is read.
    fn status_read(&self, seen: &Seen) -> Option<bool> {
        let [kind, offset, ..] = *seen.record;
        let (width, at) = match kind {
            1 => (Width::Byte, 1),
            _ => (Width::Word, 0),
        };
        let (packet, address) = seen.before.chip.data_read(width, offset)?;
        let (sent, up) = self.sent?;
        (packet == sent && address.0 == at).then_some(up)
    }

    fn note(&mut self, seen: &Seen) {
        let (before, after) = seen.chips();
        if let (7, Ok(_), Some(packet)) = (seen.record[0], seen.answer, before.tx.head()) {
            self.sent = Some((packet, after.registers.link.up));
        }
        self.sent = self
            .sent
            .filter(|&(packet, _)| after.packets.is_allocated(packet));
    }
}
