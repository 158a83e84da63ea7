//! Frames by their check sequence: right, wrong in each way that a slip would
//! take for right, and what else decides whether they are stored.

use super::tables::{Part, Tables};
use super::Seen;
use crate::chip::{control, rcr};
use crate::crc::{self, fcs, on_wire, remainder, FCS_SIZE, GENERATOR};

/// Of a frame whose check sequence is looked at: stored, damaged, or without
/// room.
pub fn count(tables: &mut Tables, seen: &Seen, value: u16) {
    let frame = seen.before.gathered.as_slice();
    let verdict = verdict_name(frame);
    tables.count(Part::Checks, conditions(seen), others(seen));
    if value == 5 {
        let row = format!("{verdict}, without room");
        return tables.count(Part::Checks, row, others(seen));
    }
    let column = format!("value {value}");
    tables.count(Part::Checks, check_name(frame), &column);
    if seen.before.chip.registers.rcr & rcr::STRIP_CRC != 0 && value == 0 {
        tables.count(Part::Checks, format!("{verdict}, stripped"), &column);
    }
    if seen.before.output.starts_with(frame) {
        tables.count(Part::Checks, format!("{verdict}, put out before"), column);
    }
}

fn verdict_name(frame: &[u8]) -> &'static str {
    match crc::is_bad(frame) {
        true => "wrong",
        false => "right",
    }
}

/// The check sequence, the length, and what "bit 0 of record kind 6 ignored"
/// says does not count.
fn conditions(seen: &Seen) -> String {
    let frame = seen.before.gathered.as_slice();
    let length = if frame.len() < 64 { "under" } else { "from" };
    let bit = if seen.record[1] & 1 == 0 { 0 } else { 1 };
    format!("{}, {length} 64, bit 0 is {bit}", verdict_name(frame))
}

/// The alignment flag, and whether damaged frames are stored.
fn others(seen: &Seen) -> &'static str {
    let alignment = seen.record[1] & 2 != 0;
    let stores = seen.before.chip.registers.control & control::RECEIVE_BAD != 0;
    match (alignment, stores) {
        (true, true) => "alignment, control bit 14",
        (true, false) => "alignment",
        (false, true) => "control bit 14",
        (false, false) => "neither",
    }
}

/// In which way the last four bytes are wrong, if they are.
fn check_name(frame: &[u8]) -> String {
    let (rest, last) = frame.split_at(frame.len() - FCS_SIZE);
    let right = fcs(rest);
    let reversed = |mut bytes: [u8; FCS_SIZE]| {
        bytes.reverse();
        bytes
    };
    let wrong: Vec<_> = (0..FCS_SIZE).filter(|&at| last[at] != right[at]).collect();
    match wrong[..] {
        [] => "right".into(),
        _ if last == on_wire(remainder(rest)) => "not complemented".into(),
        _ if last == reversed(right) => "bytes in the other order".into(),
        _ if last == right.map(u8::reverse_bits) => "bits in the other order".into(),
        [only] => format!("byte {only} of it changed"),
        _ => match (missing(frame), changed(frame)) {
            (Some(count), _) => format!("cut by {count}"),
            (_, Some(0..6)) => "address changed".into(),
            (_, Some(place)) if place + 1 == rest.len() => "last byte before it changed".into(),
            (_, Some(_)) => "a byte between changed".into(),
            _ => "any other".into(),
        },
    }
}

/// How many bytes a frame lacks that is right but for its end, 1 to 3. (Any
/// bytes at all are a frame without its FCS.)
fn missing(frame: &[u8]) -> Option<usize> {
    (1..FCS_SIZE).find(|missing| {
        let (rest, last) = frame.split_at(frame.len() + missing - FCS_SIZE);
        fcs(rest).starts_with(last)
    })
}

/// Which byte before the FCS is the only one that is wrong, if one is: the
/// difference of the remainders, taken back byte by byte, comes to be a byte
/// where this was shifted in.
fn changed(frame: &[u8]) -> Option<usize> {
    let (rest, last) = frame.split_at(frame.len() - FCS_SIZE);
    let received = u32::from_le_bytes(last.try_into().ok()?).reverse_bits();
    let mut difference = !remainder(rest) ^ received;
    (0..rest.len()).rev().find(|_| {
        difference = (0..8).fold(difference, |register, _| shifted_back(register));
        difference << 8 == 0
    })
}

/// The register before it was shifted left by a bit: the generator's lowest bit
/// says whether it was added.
fn shifted_back(register: u32) -> u32 {
    match register & 1 {
        0 => register >> 1,
        _ => (register ^ GENERATOR) >> 1 | 1 << 31,
    }
}
