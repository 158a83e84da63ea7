//! Requests that wait for pages: what they meet, what grants or drops them, and
//! what a driver does meanwhile and with the packet granted.

use std::collections::BTreeSet;

use super::commands::{command_name, those};
use super::tables::{Part, Tables};
use super::{in_pieces, Seen};
use crate::bench::numbers;
use crate::chip::{ephsr, rcr};
use crate::memory::{Layout, PacketNumber, PageNumber};

const ALLOCATION: &str = "20h to 27h";
const STORED_FRAME: &str = "frame stored";
/// What can give pages back, as events have it.
const RELEASE: &str = "a0h";
const REMOVE_AND_RELEASE: &str = "80h";
const RELEASING_SEND: &str = "send, released";

/// What came before, for a record shows a single step.
#[derive(Default)]
pub struct History {
    /// What the request that waits has met.
    met: BTreeSet<String>,
    /// The frames stored meanwhile.
    overtakers: Vec<PacketNumber>,
    /// The packet that a request was granted last, and by what.
    granted: Option<(PacketNumber, String)>,
}

pub fn count(tables: &mut Tables, history: &mut History, seen: &Seen) {
    count_driver(tables, history, seen);
    let Some(event) = event_name(seen) else {
        return;
    };
    let (before, after) = seen.chips();
    match (before.registers.waiting, after.registers.waiting) {
        (old, Some(pages)) if event == ALLOCATION => count_start(tables, history, old, pages),
        (Some(pages), Some(_)) => count_meeting(tables, history, seen, event, pages),
        (Some(pages), None) => count_end(tables, history, seen, event, pages),
        (None, _) => {}
    }
}

/// What a record does that could move pages, queues or the request.
fn event_name(seen: &Seen) -> Option<String> {
    let [kind, offset, value, ..] = *seen.record;
    let bank = seen.before.chip.registers.bank;
    Some(match (kind, bank, offset) {
        (3 | 4, 2, 0) if seen.answer.is_err() => "refused command".into(),
        (3 | 4, 2, 0) if (0x20..=0x27).contains(&value) => ALLOCATION.into(),
        (3 | 4, 2, 0) => command_name(value),
        (3 | 4, 0, 4 | 5) if resets(seen) => "soft reset".into(),
        (6, ..) => frame_name(seen).into(),
        (7, ..) => send_name(seen).into(),
        _ => return None,
    })
}

fn resets(seen: &Seen) -> bool {
    seen.answer.is_ok() && seen.after.chip.registers.rcr & rcr::SOFT_RESET != 0
}

fn frame_name(seen: &Seen) -> &'static str {
    match numbers(seen.answer) {
        (0, 0) => STORED_FRAME,
        (0, 5) => "frame without room",
        _ => "frame not received",
    }
}

fn send_name(seen: &Seen) -> &'static str {
    let (before, after) = seen.chips();
    match seen.answer {
        Err(_) => "refused send",
        Ok(_) if after.registers.ephsr & ephsr::TX_SUC == 0 => "send, failed",
        Ok(_) if after.completion.len() > before.completion.len() => "send, kept",
        Ok(_) => RELEASING_SEND,
    }
}

/// A request that waits from now on, alone or in place of another.
fn count_start(tables: &mut Tables, history: &mut History, old: Option<usize>, pages: usize) {
    let column = match old {
        None => "waits",
        Some(old) if old < pages => "replaced by more",
        Some(old) if old > pages => "replaced by fewer",
        Some(_) => "replaced by as many",
    };
    tables.count(Part::Waiting, ALLOCATION, column);
    tables.count(Part::Waiting, size_name(pages), "waits");
    history.overtakers.clear();
    history.met.clear();
    if old.is_some() {
        history.met.insert(ALLOCATION.into());
    }
}

fn size_name(pages: usize) -> String {
    format!("for {pages}")
}

/// Whatever leaves the request waiting for its pages.
fn count_meeting(
    tables: &mut Tables,
    history: &mut History,
    seen: &Seen,
    event: String,
    pages: usize,
) {
    let after = &seen.after.chip;
    let free = after.packets.free_pages();
    let stored = event == STORED_FRAME;
    let taken: usize = history
        .overtakers
        .iter()
        .filter(|&&packet| after.rx.contains(packet))
        .map(|&packet| after.packets.page_count(packet))
        .sum();
    let columns = those(&[
        (true, "waits on"),
        (stored && free == 0, "takes the last page"),
        (
            gives(&event) && free + taken >= pages,
            "too few for a frame",
        ),
    ]);
    for column in columns {
        tables.count(Part::Waiting, &event, column);
    }
    if stored {
        history.overtakers.extend(after.rx.entries().last());
    }
    history.met.insert(event);
}

fn gives(event: &str) -> bool {
    [RELEASE, REMOVE_AND_RELEASE, RELEASING_SEND].contains(&event)
}

/// A grant, by pages given back or to another request; or the request is dropped.
fn count_end(tables: &mut Tables, history: &mut History, seen: &Seen, event: String, pages: usize) {
    let Some(packet) = seen.after.chip.registers.result else {
        return tables.count(Part::Waiting, event, "dropped");
    };
    if event == ALLOCATION {
        return tables.count(Part::Waiting, event, "replaced, granted");
    }
    tables.count(Part::Waiting, size_name(pages), "granted");
    for column in grant_meets(seen, &event, packet) {
        tables.count(Part::Waiting, &event, column);
    }
    for met in &history.met {
        tables.count(Part::Waiting, met, "granted later");
    }
    history.granted = Some((packet, event));
}

/// Which number and pages are granted, and how near it was.
fn grant_meets(seen: &Seen, event: &str, packet: PacketNumber) -> Vec<&'static str> {
    let (before, after) = seen.chips();
    let freed = match event {
        RELEASE => before.selected_packet(),
        REMOVE_AND_RELEASE => before.rx.head(),
        _ => before.tx.head(),
    };
    let freed_pages = freed.map_or(&[][..], |packet| before.packets.pages(packet));
    let pages = after.packets.pages(packet);
    let all_freed = pages
        .iter()
        .all(|page: &PageNumber| freed_pages.contains(page));
    let left = after.packets.free_pages();
    those(&[
        (true, "granted"),
        (freed == Some(packet), "number just freed"),
        (freed != Some(packet), "lower number"),
        (all_freed, "pages just freed alone"),
        (!all_freed, "pages free before too"),
        (left == 0, "just enough"),
        (left > 0, "pages left over"),
        (
            left < usize::from(before.registers.reserved),
            "fewer left than reserved",
        ),
        (in_pieces(pages), "in pieces"),
        (pages[0].get() != packet.get(), "number is no page"),
    ])
}

/// What a driver reads and does, while a request waits and after its grant.
fn count_driver(tables: &mut Tables, history: &mut History, seen: &Seen) {
    let after = &seen.after.chip;
    let read = read_name(seen);
    if let (Some(column), Some(_)) = (read, after.registers.waiting) {
        tables.count(Part::Granted, "waiting", column);
    }
    let Some((packet, by)) = &history.granted else {
        return;
    };
    for column in read.into_iter().chain(use_name(seen, *packet)) {
        tables.count(Part::Granted, format!("granted by {by}"), column);
    }
    if after.registers.result != Some(*packet) || !after.packets.is_allocated(*packet) {
        history.granted = None;
    }
}

/// A read in which a wait or a grant shows.
fn read_name(seen: &Seen) -> Option<&'static str> {
    let [kind, offset, ..] = *seen.record;
    let bank = seen.before.chip.registers.bank;
    match (kind, bank, offset) {
        (1, 2, 0x3) | (2, 2, 0x2) => Some("result read"),
        (1 | 2, 2, 0xc) => Some("status read"),
        (1, 0, 0x9) | (2, 0, 0x8) => Some("MIR read"),
        _ => None,
    }
}

/// What is done with the packet.
fn use_name(seen: &Seen, packet: PacketNumber) -> Option<&'static str> {
    let [kind, offset, value, ..] = *seen.record;
    let before = &seen.before.chip;
    let chosen = before.selected_packet() == Some(packet);
    let pointed = chosen && !before.registers.pointer.is_receive();
    match (kind, before.registers.bank, offset) {
        _ if seen.answer.is_err() => None,
        (3 | 4, 2, 0x0) if chosen && value == 0xc0 => Some("enqueued"),
        (3 | 4, 2, 0x8..=0xb) if pointed => Some("written"),
        (7, ..) if before.tx.head() == Some(packet) => Some("sent"),
        _ => None,
    }
}
