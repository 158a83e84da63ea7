//! The parts: where one is asked for, and what each meets at its limits.

use super::commands::those;
use super::tables::{Part, Tables};
use super::{frames, Seen};
use crate::bench::numbers;
use crate::chip::{rcr, Chip};
use crate::memory::{Layout, PacketNumber};
use crate::places::{ENQUEUE, FREE_ALL, RELEASE};
use crate::refusal::Refusal;

/// What came before, for a record shows a single step.
#[derive(Default)]
pub struct History {
    /// What the first record was.
    first: Option<&'static str>,
}

pub fn count(tables: &mut Tables, history: &mut History, seen: &Seen) {
    if seen.record[0] == 9 {
        let row = byte_name(seen.record[1]);
        for column in history.asked(seen) {
            tables.count(Part::Asked, row, column);
        }
    }
    history.first.get_or_insert(first_name(seen));
    let part = seen.after.chip.part().name();
    let access = access_name(seen).into_iter();
    for column in access.chain(limits(seen).into_iter().map(String::from)) {
        tables.count(Part::Limits, part, column);
    }
}

fn byte_name(byte: u8) -> &'static str {
    match byte {
        0x94 => "94h",
        0x96 => "96h",
        _ => "another byte",
    }
}

fn first_name(seen: &Seen) -> &'static str {
    match (seen.record[0], seen.answer) {
        (9, Ok(_)) => "behind an answered first",
        (9, Err(_)) => "behind a refused first",
        (_, Err(Refusal::BadRecord)) => "behind an unknown first",
        _ => "behind another first",
    }
}

impl History {
    /// First or not, and what a refusal has to leave.
    fn asked(&self, seen: &Seen) -> Vec<String> {
        let before = &seen.before.chip;
        let Some(first) = self.first else {
            let answer = numbers(seen.answer).0;
            return vec![format!("first, {answer}")];
        };
        let reset = before.registers.rcr & rcr::SOFT_RESET != 0;
        let met = those(&[
            (true, first),
            (!seen.before.gathered.is_empty(), "wire bytes gathered"),
            (before.registers.waiting.is_some(), "a request waits"),
            (reset, "after a soft reset"),
            (before.line_is_up(), "line up"),
        ]);
        let later = format!("later, {}", before.part().name());
        let met = met.into_iter().map(String::from);
        met.chain([later]).collect()
    }
}

fn size(chip: &Chip) -> usize {
    chip.part().packets()
}

/// What was used up, or was not.
fn limits(seen: &Seen) -> Vec<&'static str> {
    [
        grants(seen),
        sends(seen),
        frames_meet(seen),
        queues(seen),
        reads_and_resets(seen),
    ]
    .concat()
}

/// What the record does to the packet in the packet number register: to the last
/// of the part, or to one that no packet is.
fn access_name(seen: &Seen) -> Option<String> {
    let [kind, offset, value, ..] = *seen.record;
    let now = &seen.before.chip.registers;
    let what = match (kind, now.bank, offset) {
        (3 | 4, 2, 0x0) if value == RELEASE => "a0h",
        (3 | 4, 2, 0x0) if value == ENQUEUE => "c0h",
        (1 | 2, 2, 0x8..=0xb) if !now.pointer.is_receive() => "data read",
        (3 | 4, 2, 0x8..=0xb) if !now.pointer.is_receive() => "data write",
        _ => return None,
    };
    let size = size(&seen.before.chip);
    let which = match (seen.answer, usize::from(now.packet_number)) {
        (Ok(_), number) if number == size - 1 => "the last",
        (Err(Refusal::NotAllocated), 63) => "63",
        (Err(Refusal::NotAllocated), number) if number == size => "the first above",
        (Err(Refusal::NotAllocated), 23 | 24) if size < 23 => "23 or 24",
        _ => return None,
    };
    Some(format!("{what} of {which}"))
}

/// Is it one of the commands 20h to 27h.
fn allocates(seen: &Seen) -> bool {
    let [kind, offset, value, ..] = *seen.record;
    let bank = seen.before.chip.registers.bank;
    matches!((kind, bank, offset, value), (3 | 4, 2, 0x0, 0x20..=0x27))
}

/// Number and pages granted: to a command, to a request that waits or to a frame.
fn grants(seen: &Seen) -> Vec<&'static str> {
    let (before, after) = seen.chips();
    let used_up =
        |chip: &Chip| PacketNumber::all(chip.part()).all(|it| chip.packets.is_allocated(it));
    let asks = allocates(seen);
    let result = after.registers.result;
    let (granted, last_number, last_page) = match seen.record[0] {
        _ if asks => (result, "last number asked for", "last page asked for"),
        6 if seen.answer == Ok(0) => (
            after.rx.entries().last(),
            "last number of a frame",
            "last page of a frame",
        ),
        _ if before.registers.waiting.is_some() => {
            (result, "last number waited for", "last page waited for")
        }
        _ => return Vec::new(),
    };
    let Some(packet) = granted else {
        return those(&[(asks && used_up(after), "80h, all numbers granted")]);
    };
    let last = size(after) as u8 - 1;
    let pages = after.packets.pages(packet);
    let waited = before.registers.waiting.is_some() && !asks;
    those(&[
        (packet.get() == last, last_number),
        (pages.iter().any(|page| page.get() == last), last_page),
        (waited && used_up(before), "granted, all numbers granted"),
    ])
}

/// "the completion FIFO holds 18", or 24; a good send that releases its packet
/// needs no place.
fn sends(seen: &Seen) -> Vec<&'static str> {
    let [kind, outcome, ..] = *seen.record;
    let (before, after) = seen.chips();
    if kind != 7 {
        return Vec::new();
    }
    let last = usize::from(before.tx.port()) == size(before) - 1;
    let full = |chip: &Chip| chip.completion.is_full();
    let refused = seen.answer == Err(Refusal::CompletionFull);
    let done = seen.answer.is_ok();
    those(&[
        (done && last, "send of the last"),
        (done && !full(before) && full(after), "completion filled"),
        (done && full(before), "send released, completion full"),
        (refused && outcome == 0, "good send, completion full"),
        (
            refused && [1, 2, 5].contains(&outcome),
            "failed send, completion full",
        ),
    ])
}

/// "free pages less those needed are below the reserved number", or just not.
fn frames_meet(seen: &Seen) -> Vec<&'static str> {
    let chip = &seen.before.chip;
    let (0, value @ (0 | 5)) = numbers(seen.answer) else {
        return Vec::new();
    };
    if seen.record[0] != 6 {
        return Vec::new();
    }
    let free = chip.packets.free_pages();
    let needed = frames::room_needed(chip, seen.before.gathered.as_slice());
    let all = chip.packets.all_free();
    those(&[
        (value == 5 && free == 0, "frame, none free"),
        (
            all && needed == free + 1,
            "frame, all free and one too many reserved",
        ),
        (all && needed == free, "frame, all free and none to spare"),
    ])
}

fn queues(seen: &Seen) -> Vec<&'static str> {
    let (before, after) = seen.chips();
    let filled = before.tx.len() < after.tx.len() && after.tx.is_full();
    those(&[(filled, "all numbers in TX")])
}

/// MIR at either end, and what gives all pages back and keeps the part.
fn reads_and_resets(seen: &Seen) -> Vec<&'static str> {
    let [kind, offset, value, ..] = *seen.record;
    let (before, after) = seen.chips();
    let held = !before.packets.all_free();
    match (kind, before.registers.bank, offset) {
        (1, 0, 0x8 | 0x9) | (2, 0, 0x8) => those(&[
            (!held, "MIR, all free"),
            (before.packets.free_pages() == 0, "MIR, none free"),
        ]),
        (3 | 4, 2, 0x0) if value == FREE_ALL => those(&[(held, "40h")]),
        (3 | 4, 0, 0x4 | 0x5) => {
            let resets = after.registers.rcr & rcr::SOFT_RESET != 0;
            those(&[(held && resets, "soft reset")])
        }
        _ => Vec::new(),
    }
}
