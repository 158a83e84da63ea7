//! All that can be seen of a bench: what a record answers and changes, and at
//! the end the registers, the pool, the output buffer and the memory.

use std::io::Write;

use crate::bench::{push_hex, Answer, Bench, Record};
use crate::chip::{Chip, Registers};
use crate::fifo::Fifo;
use crate::memory::{PacketNumber, PageNumber};
use crate::watch::push_seen;

/// A sum in which the place of each number counts.
pub fn sum(numbers: impl IntoIterator<Item = u32>) -> u32 {
    numbers
        .into_iter()
        .fold(1, |sum, number| (sum * 31 + number) % 65_521)
}

/// Every register, in the order of the banks; behind them what has no offset of
/// its own: the two latches, the pages that a request waits for, or 0, and the
/// link with its change. EPHSR is without the link.
pub fn registers(now: &Registers) -> Vec<u32> {
    let result = now.result.map_or(0x80, PacketNumber::get);
    let words = [now.tcr, now.ephsr, now.rcr, now.ecr].map(u32::from);
    let latches = [now.tx_empty, now.rx_overrun].map(u32::from);
    let mut all = vec![u32::from(now.bank)];
    all.extend(words);
    all.push(u32::from(now.reserved));
    all.extend(now.station.0.map(u32::from));
    all.push(u32::from(now.control));
    all.extend([now.packet_number, result].map(u32::from));
    all.push(u32::from(now.pointer.0));
    all.push(u32::from(now.mask));
    all.extend(now.multicast.map(u32::from));
    all.extend(latches);
    all.push(now.waiting.unwrap_or(0) as u32);
    all.extend([now.link.up, now.link.changed].map(u32::from));
    all
}

/// The page list of each packet, then RX, TX and completion; before each list
/// its length.
pub fn pool(chip: &Chip) -> Vec<u32> {
    let queue = |fifo: &Fifo| fifo.entries().map(PacketNumber::get).collect::<Vec<_>>();
    let pages = |packet| {
        chip.packets
            .pages(packet)
            .iter()
            .map(|page: &PageNumber| page.get())
    };
    let lists = PacketNumber::all(chip.part()).map(|packet| pages(packet).collect::<Vec<_>>());
    let queues = [&chip.rx, &chip.tx, &chip.completion].map(queue);
    lists.chain(queues).flat_map(counted).collect()
}

fn counted(list: Vec<u8>) -> impl Iterator<Item = u32> {
    let length = list.len() as u32;
    std::iter::once(length).chain(list.into_iter().map(u32::from))
}

/// A record's line: its number, the answer's number and value, the interrupt
/// line, and the sum of registers and pool after it; for a frame or a send that
/// is done also the sum of the memory, and for a send the sum of the output
/// buffer and the bytes that were put out.
fn push_record(lines: &mut Vec<u8>, number: u64, kind: u8, answer: Answer, bench: &Bench) {
    let chip = &bench.chip;
    let state = sum(registers(&chip.registers).into_iter().chain(pool(chip)));
    push_seen(lines, number, answer, chip);
    let _ = write!(lines, " {state}");
    if answer.is_ok() && (kind == 6 || kind == 7) {
        let _ = write!(lines, " {}", sum_bytes(chip.packets.bytes()));
    }
    if let Some(bytes) = bench.put_out(kind, answer) {
        let _ = write!(lines, " {} ", sum_bytes(&bench.output));
        push_hex(lines, bytes);
    }
    lines.push(b'\n');
}

fn sum_bytes(bytes: &[u8]) -> u32 {
    sum(bytes.iter().copied().map(u32::from))
}

fn push_numbers(lines: &mut Vec<u8>, name: &str, numbers: &[u32]) {
    let _ = write!(lines, "{name}");
    for number in numbers {
        let _ = write!(lines, " {number}");
    }
    lines.push(b'\n');
}

fn push_bytes(lines: &mut Vec<u8>, name: &str, bytes: &[u8]) {
    let _ = write!(lines, "{name} ");
    push_hex(lines, bytes);
    lines.push(b'\n');
}

/// Everything about a stream from power-up: a line for each record, then the
/// registers, the pool, the output buffer and the memory.
pub fn tell(records: &[Record]) -> String {
    let mut bench = Bench::default();
    let mut lines = Vec::new();
    for (number, record) in (1..).zip(records) {
        let answer = bench.step(record);
        push_record(&mut lines, number, record[0], answer, &bench);
    }
    push_numbers(&mut lines, "registers", &registers(&bench.chip.registers));
    push_numbers(&mut lines, "pool", &pool(&bench.chip));
    push_bytes(&mut lines, "output", &bench.output);
    push_bytes(&mut lines, "memory", bench.chip.packets.bytes());
    String::from_utf8(lines).expect("names and digits")
}
