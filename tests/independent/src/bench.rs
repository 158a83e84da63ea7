//! "Bench program and its records".

use crate::chip::ChipOn;
use crate::memory::{Layout, Paged, Strips};
use crate::part::Part;
use crate::refusal::Refusal;
use crate::registers::Width;
use crate::send::{SendEnd, OUTPUT_SIZE};

pub const RECORD_SIZE: usize = 8;
/// "11 if ... more than 2,048 would gather".
const MOST_GATHERED: usize = 2_048;

pub type Record = [u8; RECORD_SIZE];

/// A record's answer: its value, or why it was refused.
pub type Answer = Result<u16, Refusal>;

/// The answer's number and value as printed.
pub fn numbers(answer: Answer) -> (u8, u16) {
    match answer {
        Ok(value) => (0, value),
        Err(refusal) => (refusal.number(), refusal.value()),
    }
}

/// Wire bytes gathered by kind 5 until a kind 6 ends the frame.
#[derive(Clone, Debug)]
pub struct Gathered {
    bytes: [u8; MOST_GATHERED],
    len: usize,
}

impl Default for Gathered {
    fn default() -> Self {
        Self {
            bytes: [0; MOST_GATHERED],
            len: 0,
        }
    }
}

impl Gathered {
    pub fn len(&self) -> usize {
        self.len
    }

    pub fn is_empty(&self) -> bool {
        self.len == 0
    }

    pub fn as_slice(&self) -> &[u8] {
        &self.bytes[..self.len]
    }

    /// "byte 1 count 1 to 6, then bytes"; a refusal adds nothing.
    fn add(&mut self, count: u8, bytes: &[u8]) -> Result<(), Refusal> {
        let count = usize::from(count);
        if !(1..=6).contains(&count) || self.len + count > MOST_GATHERED {
            return Err(Refusal::OutsideLimits);
        }
        self.bytes[self.len..self.len + count].copy_from_slice(&bytes[..count]);
        self.len += count;
        Ok(())
    }

    fn clear(&mut self) {
        self.len = 0;
    }
}

/// The chip with what surrounds it on the bench.
#[derive(Clone, Debug)]
pub struct BenchOn<L> {
    pub chip: ChipOn<L>,
    pub gathered: Gathered,
    /// Bytes put out by sends; the bench's lines leave them out.
    pub output: [u8; OUTPUT_SIZE],
    /// Has any record come: only the first may ask for a part.
    pub begun: bool,
}

/// The bench of document 01's chip.
pub type Bench = BenchOn<Paged>;

/// The bench of request W3's chip.
pub type StripBench = BenchOn<Strips>;

impl<L: Layout> Default for BenchOn<L> {
    fn default() -> Self {
        Self {
            chip: ChipOn::default(),
            gathered: Gathered::default(),
            output: [0; OUTPUT_SIZE],
            begun: false,
        }
    }
}

impl<L: Layout> BenchOn<L> {
    /// Obeys one whole record. "Unused bytes are ignored."
    pub fn step(&mut self, record: &Record) -> Answer {
        let [kind, first, second, third, ..] = *record;
        let begun = std::mem::replace(&mut self.begun, true);
        match kind {
            1 => self.chip.read(Width::Byte, first),
            2 => self.chip.read(Width::Word, first),
            3 => self.write(Width::Byte, first, u16::from(second)),
            4 => self.write(Width::Word, first, u16::from_le_bytes([second, third])),
            5 => self.gathered.add(first, &record[2..]).map(|()| 0),
            6 => self.end_frame(first),
            7 => self.end_send(first, second, third),
            8 => self.chip.plug(first).map(|()| 0),
            9 if begun => Err(Refusal::OutsideLimits),
            9 => self.start(first),
            _ => Err(Refusal::BadRecord),
        }
    }

    /// "The bench asks for the part by a first record of kind 9, byte 1 being 94h
    /// or 96h"; "with another byte" it "gets 11", and the LAN91C96 stays.
    fn start(&mut self, part: u8) -> Answer {
        let part = Part::named(part).ok_or(Refusal::OutsideLimits)?;
        self.chip = ChipOn::new(part);
        Ok(0)
    }

    /// "A write returns value 0."
    fn write(&mut self, width: Width, offset: u8, value: u16) -> Answer {
        self.chip.write(width, offset, value).map(|()| 0)
    }

    /// "gathering emptied whatever the answer"; "bit 0 of record kind 6
    /// ignored".
    fn end_frame(&mut self, flags: u8) -> Answer {
        let alignment = flags & 2 != 0;
        let answer = self.chip.arrive(self.gathered.as_slice(), alignment);
        self.gathered.clear();
        answer.map(|arrival| arrival as u16)
    }

    fn end_send(&mut self, outcome: u8, collisions: u8, deferral: u8) -> Answer {
        let end = SendEnd::new(outcome, collisions, deferral)?;
        self.chip.send(end, &mut self.output)
    }

    /// What the record just answered has put out, "for a send that is done";
    /// "failed sends put out the same bytes".
    pub fn put_out(&self, kind: u8, answer: Answer) -> Option<&[u8]> {
        match (kind, answer) {
            (7, Ok(length)) => Some(&self.output[..usize::from(length)]),
            _ => None,
        }
    }
}

/// Appends an answer's line: "record number from 1, answer, value (0 if none)
/// as four lower-case hex digits".
#[inline] // with what it calls, for every record has a line
pub fn push_line(lines: &mut Vec<u8>, number: u64, answer: Answer) {
    push_answer(lines, number, answer);
    lines.push(b'\n');
}

/// The line but for its end, so that more can stand behind it.
#[inline]
pub fn push_answer(lines: &mut Vec<u8>, number: u64, answer: Answer) {
    let (refusal, value) = numbers(answer);
    push_decimal(lines, number);
    lines.push(b' ');
    push_decimal(lines, u64::from(refusal));
    lines.push(b' ');
    push_value(lines, value);
}

fn push_decimal(lines: &mut Vec<u8>, mut number: u64) {
    let mut digits = [0; 20]; // u64::MAX has twenty
    let mut at = digits.len();
    loop {
        at -= 1;
        digits[at] = b'0' + (number % 10) as u8;
        number /= 10;
        if number == 0 {
            break;
        }
    }
    lines.extend_from_slice(&digits[at..]);
}

/// Four digits at once, for every line has them.
fn push_value(lines: &mut Vec<u8>, value: u16) {
    let [high, low] = value.to_be_bytes().map(hex_digits);
    lines.extend_from_slice(&[high[0], high[1], low[0], low[1]]);
}

/// Two digits for each byte.
pub fn push_hex(lines: &mut Vec<u8>, bytes: &[u8]) {
    lines.reserve(2 * bytes.len());
    for &byte in bytes {
        lines.extend_from_slice(&hex_digits(byte));
    }
}

/// Lower-case.
fn hex_digits(byte: u8) -> [u8; 2] {
    const DIGITS: &[u8; 16] = b"0123456789abcdef";
    [byte >> 4, byte & 0xf].map(|digit| DIGITS[usize::from(digit)])
}
