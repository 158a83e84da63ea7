//! Sends: their answers, how they ended, what they put out.

use super::commands::those;
use super::tables::{Part, Tables};
use super::{answer_name, pages_name, pieces_name, Seen};
use crate::bench::Answer;
use crate::chip::{control, ephsr, tcr, Chip};
use crate::memory::PacketNumber;
use crate::send::SendEnd;

pub fn count(tables: &mut Tables, seen: &Seen) {
    let [_, outcome, collisions, deferral, ..] = *seen.record;
    let row = match outcome {
        0..=5 => format!("outcome {outcome}"),
        _ => "outcome above 5".into(),
    };
    tables.count(Part::Sends, &row, answer_name(seen.answer));
    count_order(tables, seen);
    let Some(packet) = seen.before.chip.tx.head().filter(|_| seen.answer.is_ok()) else {
        return;
    };
    for column in [verdict_name(seen), fate_name(seen)] {
        tables.count(Part::Verdicts, &row, column);
        tables.count(Part::Verdicts, collisions_name(collisions), column);
        tables.count(Part::Verdicts, format!("deferral {deferral}"), column);
        tables.count(Part::Verdicts, address_name(seen), column);
    }
    count_monitoring(tables, seen, outcome);
    count_fate(tables, seen);
    count_put_out(tables, seen, packet);
    count_ephsr(tables, seen);
    count_ecr(tables, seen);
}

fn verdict_name(seen: &Seen) -> &'static str {
    match seen.after.chip.registers.ephsr & ephsr::TX_SUC {
        0 => "failed",
        _ => "good",
    }
}

fn fate_name(seen: &Seen) -> &'static str {
    let (before, after) = seen.chips();
    match after.completion.len() > before.completion.len() {
        true => "completion",
        false => "released",
    }
}

fn collisions_name(collisions: u8) -> String {
    match collisions {
        0..=2 => format!("collisions {collisions}"),
        16 => "collisions 16".into(),
        _ => "collisions 3 to 15".into(),
    }
}

fn address_name(seen: &Seen) -> &'static str {
    let bits = ephsr::LAST_BROADCAST | ephsr::LAST_GROUP;
    match seen.after.chip.registers.ephsr & bits {
        ephsr::LAST_BROADCAST => "to broadcast",
        ephsr::LAST_GROUP => "to a group",
        _ => "to a station",
    }
}

/// "Outcome 3 is good unless TCR bit 10 is set and bit 15 clear; 4 .. unless
/// TCR bit 12 is set."
fn count_monitoring(tables: &mut Tables, seen: &Seen, outcome: u8) {
    let tcr = seen.before.chip.registers.tcr;
    let column = match outcome {
        3 => match (tcr & tcr::MON_CSN != 0, tcr & tcr::FDSE != 0) {
            (true, true) => "TCR bits 10 and 15",
            (true, false) => "TCR bit 10",
            (false, true) => "TCR bit 15",
            (false, false) => "TCR bits clear",
        },
        4 if tcr & tcr::STP_SQET != 0 => "TCR bit 12",
        4 => "TCR bits clear",
        _ => return,
    };
    tables.count(Part::Verdicts, format!("outcome {outcome}"), column);
}

/// Where the packet goes, under which control bit, and TX EMPTY.
fn count_fate(tables: &mut Tables, seen: &Seen) {
    let (before, after) = seen.chips();
    let releasing = match before.registers.control & control::AUTO_RELEASE {
        0 => "control bit 11 clear",
        _ => "control bit 11 set",
    };
    tables.count(Part::Verdicts, releasing, verdict_name(seen));
    if before.completion.is_full() {
        tables.count(Part::Verdicts, "completion full", fate_name(seen));
    }
    let last = match after.tx.is_empty() {
        true => "TX now empty",
        false => "more in TX",
    };
    let latch = match before.registers.tx_empty {
        true => "TX EMPTY was set",
        false => "TX EMPTY was clear",
    };
    tables.count(Part::Verdicts, last, latch);
}

/// "Sends 16, 15, 11, 12, 13, 14", and "18 under 12, 19 past the pages" behind
/// 13: which of the later ones hold too.
fn count_order(tables: &mut Tables, seen: &Seen) {
    let Err(given) = seen.answer else {
        return;
    };
    let [_, outcome, collisions, deferral, ..] = *seen.record;
    let chip = &seen.before.chip;
    let head = chip.tx.head();
    let outside = SendEnd::new(outcome, collisions, deferral).is_err();
    let kept = chip.registers.control & control::AUTO_RELEASE == 0;
    let holding = those(&[
        (outside, "11"),
        (chip.registers.tcr & tcr::TXENA == 0, "12, TXENA clear"),
        (head.is_none(), "12, TX empty"),
        (kept && chip.completion.is_full(), "14"),
    ]);
    let row = format!("send {}", given.number());
    for name in holding {
        tables.count(Part::Order, &row, name);
    }
    for fault in head.into_iter().flat_map(|head| chip.count_faults(head)) {
        tables.count(Part::Order, &row, fault.number().to_string());
    }
}

fn count_put_out(tables: &mut Tables, seen: &Seen, packet: PacketNumber) {
    let before = &seen.before.chip;
    let Ok(data) = before.data_length(packet) else {
        return;
    };
    let row = put_out_name(seen, data);
    let pads = before.registers.tcr & tcr::PAD_EN != 0;
    let padded = before.padded_length(packet);
    tables.count(Part::PutOut, row, padding_name(pads, data, padded));
    if pads && (padded - 1..=padded + 1).contains(&data) {
        let row = format!("data to be padded to {padded}");
        tables.count(Part::PutOut, row, data.to_string());
    }
    count_appended(tables, seen, packet, data);
    let pages = before.packets.pages(packet);
    let used = &pages[..(4 + data).div_ceil(256)];
    tables.count(Part::PutOut, pages_name(used.len()), pieces_name(used));
    if behind(seen.answer, &seen.before.output)
        .iter()
        .any(|&byte| byte != 0)
    {
        tables.count(Part::PutOut, "bytes behind", "stay");
    }
}

/// How a send of so many bytes of data ended.
pub fn put_out_name(seen: &Seen, data: usize) -> String {
    let odd = if data % 2 == 1 { "odd" } else { "even" };
    format!("{} {odd}", verdict_name(seen))
}

fn padding_name(pads: bool, data: usize, padded: usize) -> &'static str {
    match pads {
        true if data < padded => "padded",
        true => "long enough for PAD",
        false if data < 60 => "short",
        false => "60 or more",
    }
}

/// "A send appends four FCS bytes unless TCR bit 8 (NOCRC) is set and bit 4 of
/// the packet's control byte is clear".
fn count_appended(tables: &mut Tables, seen: &Seen, packet: PacketNumber, data: usize) {
    let before = &seen.before.chip;
    let bits = those(&[
        (before.registers.tcr & tcr::NOCRC != 0, "NOCRC"),
        (before.control_byte(packet) & 0x10 != 0, "control bit 4"),
        (before.registers.tcr & tcr::PAD_EN != 0, "PAD"),
    ]);
    let row = match bits[..] {
        [] => "no bit".into(),
        _ => bits.join(", "),
    };
    tables.count(Part::Appended, row, data_name(data));
    let appended = match before.appends_fcs(packet) {
        true => "with FCS",
        false => "without FCS",
    };
    tables.count(Part::Appended, appended, verdict_name(seen));
    tables.count(Part::Appended, appended, fate_name(seen));
    if data == 2_043 {
        tables.count(Part::Appended, appended, "the longest data");
    }
}

/// Either side of 60 and 64.
fn data_name(data: usize) -> String {
    let odd = if data % 2 == 1 { "odd" } else { "even" };
    let length = match data {
        0..60 => "under 60",
        60..64 => "60 to 63",
        _ => "64 or more",
    };
    format!("{odd}, {length}")
}

/// The output buffer behind what was put out.
fn behind(answer: Answer, output: &[u8]) -> &[u8] {
    &output[usize::from(answer.unwrap_or(0))..]
}

fn count_ephsr(tables: &mut Tables, seen: &Seen) {
    let ephsr = seen.after.chip.registers.shown_ephsr();
    for bit in (0..16).filter(|bit| ephsr >> bit & 1 != 0) {
        tables.count(Part::Ephsr, format!("bit {bit:2}"), verdict_name(seen));
    }
}

fn nibble(chip: &Chip, k: u16) -> u16 {
    chip.registers.ecr >> (4 * k) & 0xf
}

/// Each nibble as it grows, comes to 15 and stops there.
fn count_ecr(tables: &mut Tables, seen: &Seen) {
    let (before, after) = seen.chips();
    let [_, _, collisions, deferral, ..] = *seen.record;
    let counted = [
        collisions == 1,
        collisions > 1,
        deferral == 1,
        deferral == 2,
    ];
    for (k, meant) in (0..4).zip(counted) {
        let column = match (nibble(before, k), nibble(after, k)) {
            (15, 15) if meant => "stays at 15",
            (14, 15) => "comes to 15",
            (old, new) if new > old => "grows",
            (0, 0) if meant => "is not meant",
            _ => continue,
        };
        tables.count(
            Part::Ecr,
            format!("nibble {k}"),
            format!("{column}, {}", verdict_name(seen)),
        );
    }
}
