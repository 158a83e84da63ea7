//! Frames: their lengths and values, why they are accepted, how they are stored.

use super::checks;
use super::tables::{Part, Tables};
use super::{pages_name, pieces_name, Seen};
use crate::address::MacAddress;
use crate::bench::numbers;
use crate::chip::{control, rcr, Chip};
use crate::crc;
use crate::frame::{byte_count, pages_needed};
use crate::memory::{Layout, PacketAddress, PacketNumber};

/// The flag of a frame's end, as byte 1 of its record has it.
const ALIGNMENT: u8 = 2;

pub fn count(tables: &mut Tables, seen: &Seen) {
    let frame = seen.before.gathered.as_slice();
    let (refusal, value) = numbers(seen.answer);
    let name = match refusal {
        0 => format!("value {value}"),
        _ => format!("ref. {refusal}"),
    };
    tables.count(Part::Frames, length_name(frame.len()), &name);
    let receiving = seen.before.chip.registers.rcr & rcr::RXEN != 0;
    if refusal != 0 {
        let enabled = if receiving { "RXEN set" } else { "RXEN clear" };
        return tables.count(Part::FrameOrder, name, enabled);
    }
    count_order(tables, seen, value, &name);
    if receiving {
        count_acceptance(tables, seen);
    }
    if let 0 | 4 | 5 = value {
        checks::count(tables, seen, value);
    }
    match value {
        0 => count_stored(tables, seen),
        3 | 5 => count_abort(tables, seen, &name),
        _ => {}
    }
}

fn length_name(length: usize) -> String {
    let ends = [
        17, 18, 63, 64, 65, 249, 260, 505, 516, 1_513, 1_518, 1_531, 1_532, 1_533, 2_047,
    ];
    let upper = ends.into_iter().find(|&end| length <= end);
    format!("up to {:5}", upper.unwrap_or(2_048))
}

/// Which of the later values would hold too, and why a frame is bad.
fn count_order(tables: &mut Tables, seen: &Seen, value: u16, name: &str) {
    let chip = &seen.before.chip;
    let frame = seen.before.gathered.as_slice();
    let reasons = bad_reasons(seen);
    let drops = chip.registers.control & control::RECEIVE_BAD == 0;
    let holding = [
        (2, acceptance(chip, MacAddress::leading(frame)).is_empty()),
        (3, frame.len() > 1_532),
        (4, drops && !reasons.is_empty()),
        (5, chip.packets.free_pages() < room_needed(chip, frame)),
    ];
    for (other, _) in holding
        .into_iter()
        .filter(|(other, holds)| *holds && value != 0 && *other > value)
    {
        tables.count(Part::FrameOrder, name, format!("and {other}"));
    }
    if let ([only], 0 | 4) = (&reasons[..], value) {
        tables.count(Part::FrameOrder, name, *only);
    }
}

fn bad_reasons(seen: &Seen) -> Vec<&'static str> {
    let frame = seen.before.gathered.as_slice();
    let reasons = [
        (crc::is_bad(frame), "bad CRC alone"),
        (seen.record[1] & ALIGNMENT != 0, "alignment alone"),
        (frame.len() < 64, "under 64 alone"),
    ];
    let holding = reasons.into_iter().filter(|(holds, _)| *holds);
    holding.map(|(_, name)| name).collect()
}

/// "n is the length, less 4 when RCR bit 9 is set."
fn stored_length(chip: &Chip, frame: &[u8]) -> usize {
    match chip.registers.rcr & rcr::STRIP_CRC {
        0 => frame.len(),
        _ => frame.len() - 4,
    }
}

/// The pages that a frame needs, with those reserved.
pub fn room_needed(chip: &Chip, frame: &[u8]) -> usize {
    pages_needed(stored_length(chip, frame)) + usize::from(chip.registers.reserved)
}

/// Each reason for which an address is accepted.
fn acceptance(chip: &Chip, destination: MacAddress) -> Vec<&'static str> {
    let now = &chip.registers;
    let group = destination.is_group();
    let reasons = [
        (now.rcr & rcr::PROMISCUOUS != 0, "RCR bit 1 alone"),
        (destination.is_broadcast(), "broadcast alone"),
        (
            group && now.rcr & rcr::ALL_MULTICAST != 0,
            "RCR bit 2 alone",
        ),
        (
            group && destination.hash().is_set_in(&now.multicast),
            "table bit alone",
        ),
        (destination == now.station, "station alone"),
    ];
    let holding = reasons.into_iter().filter(|(holds, _)| *holds);
    holding.map(|(_, name)| name).collect()
}

fn count_acceptance(tables: &mut Tables, seen: &Seen) {
    let chip = &seen.before.chip;
    let destination = MacAddress::leading(seen.before.gathered.as_slice());
    let kind = match destination.is_group() {
        true => "group",
        false => "individual",
    };
    match acceptance(chip, destination)[..] {
        [] => count_near(tables, chip, destination, kind),
        [only] => {
            tables.count(Part::Acceptance, only, kind);
            if only == "table bit alone" {
                let hash = destination.hash().get();
                tables.count(Part::Acceptance, "table byte", (hash >> 3).to_string());
                tables.count(Part::Acceptance, "table bit", (hash & 7).to_string());
            }
        }
        _ => tables.count(Part::Acceptance, "several", kind),
    }
}

/// An address that nothing accepts, and how near it comes.
fn count_near(tables: &mut Tables, chip: &Chip, destination: MacAddress, kind: &str) {
    let now = &chip.registers;
    let hash = destination.hash();
    let others = now
        .multicast
        .iter()
        .map(|byte| byte.count_ones())
        .sum::<u32>();
    let bits = |from: MacAddress| {
        let pairs = from.0.iter().zip(destination.0);
        pairs
            .map(|(left, right)| (left ^ right).count_ones())
            .sum::<u32>()
    };
    let near = [
        ("none", true),
        ("none, RCR bit 2 set", now.rcr & rcr::ALL_MULTICAST != 0),
        ("none, its table bit set", hash.is_set_in(&now.multicast)),
        ("none, all other table bits set", others == 63),
        ("none, one bit from the station", bits(now.station) == 1),
        (
            "none, one bit from broadcast",
            bits(MacAddress::BROADCAST) == 1,
        ),
    ];
    for (row, _) in near.into_iter().filter(|(_, holds)| *holds) {
        tables.count(Part::Acceptance, row, kind);
    }
}

fn count_stored(tables: &mut Tables, seen: &Seen) {
    let (before, after) = seen.chips();
    let frame = seen.before.gathered.as_slice();
    let Some(packet) = after.rx.entries().last() else {
        return;
    };
    let pages = after.packets.pages(packet);
    let status = after.packets.word(packet, PacketAddress(0));
    count_status(tables, status);
    let n = stored_length(before, frame);
    let parity = if n % 2 == 1 { "n odd" } else { "n even" };
    let stripped = if n < frame.len() {
        "without FCS"
    } else {
        "with FCS"
    };
    tables.count(Part::Stored, parity, stripped);
    tables.count(Part::Stored, pages_name(pages.len()), pieces_name(pages));
    for (row, column) in meetings(seen, packet, n) {
        tables.count(Part::Stored, row, column);
    }
}

/// Each status bit set, and those that stand alone.
fn count_status(tables: &mut Tables, status: u16) {
    let flags = status & 0xfc01;
    for bit in (0..16).filter(|bit| flags >> bit & 1 != 0) {
        let column = if flags.count_ones() == 1 {
            "alone"
        } else {
            "with others"
        };
        tables.count(Part::Stored, format!("status bit {bit}"), column);
    }
    if flags == 0 {
        tables.count(Part::Stored, "status", "no bit");
    }
}

fn meetings(seen: &Seen, packet: PacketNumber, n: usize) -> Vec<(&'static str, &'static str)> {
    let (before, after) = seen.chips();
    let frame = seen.before.gathered.as_slice();
    let free = before.packets.free_pages();
    let reserved = if before.registers.reserved > 0 {
        "some reserved"
    } else {
        "none reserved"
    };
    let count = byte_count(n);
    let later = (count..after.packets.size(packet))
        .map(|at| after.packets.byte(packet, PacketAddress(at as u16)));
    let met = [
        (
            free == room_needed(before, frame),
            ("room just enough", reserved),
        ),
        (
            free > room_needed(before, frame),
            ("room to spare", reserved),
        ),
        (
            after.packets.pages(packet)[0].get() != packet.get(),
            ("packet", "number is no page"),
        ),
        (
            before.registers.result.is_some(),
            ("allocation result", "stays"),
        ),
        (before.rx.is_empty(), ("RX", "was empty")),
        (!before.rx.is_empty(), ("RX", "was not empty")),
        (count.is_multiple_of(256), ("last page", "full")),
        (count % 256 == 2, ("last page", "two bytes")),
        (
            later.fold(0, |all, byte| all | byte) != 0,
            ("last page", "later bytes stay"),
        ),
    ];
    met.into_iter()
        .filter(|(holds, _)| *holds)
        .map(|(_, cell)| cell)
        .collect()
}

fn count_abort(tables: &mut Tables, seen: &Seen, name: &str) {
    let before = &seen.before.chip;
    let needed = room_needed(before, seen.before.gathered.as_slice());
    let full = name == "value 5";
    let met = [
        (
            before.registers.rcr & rcr::RX_ABORT == 0,
            "RX_ABORT was clear",
        ),
        (!before.registers.rx_overrun, "RX_OVRN was clear"),
        (full && before.registers.rx_overrun, "RX_OVRN was set"),
        (
            full && needed == before.packets.free_pages() + 1,
            "one page short",
        ),
    ];
    for (_, column) in met.into_iter().filter(|(holds, _)| *holds) {
        tables.count(Part::FrameOrder, name, column);
    }
}

/// "byte 1 count 1 to 6"; "11 if .. more than 2,048 would gather".
pub fn count_wire(tables: &mut Tables, seen: &Seen) {
    let count = seen.record[1];
    let total = seen.before.gathered.len() + usize::from(count);
    let (row, column) = match (seen.answer, total) {
        (_, 2_048) => ("total".into(), "2,048"),
        (Err(_), 2_049) if count < 7 => ("total".into(), "2,049"),
        (Err(_), 2_050..) if count < 7 => (format!("count {count}"), "too many"),
        (Err(_), _) if count > 7 => ("count above 7".into(), "refused"),
        (Err(_), _) => (format!("count {count}"), "refused"),
        (Ok(_), _) => (format!("count {count}"), "gathered"),
    };
    tables.count(Part::Wire, row, column);
}
