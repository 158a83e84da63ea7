//! What a stream of records reaches: counts by kind, answer and value, so that
//! a comparison can be shown to have met every rule.

mod accesses;
mod checks;
mod commands;
mod counts;
mod data;
mod frames;
mod link;
mod parts;
mod sends;
mod states;
mod strips;
mod tables;
mod waiting;

use std::fmt;

use crate::bench::{numbers, Answer, Bench, Record};
use crate::chip::Chip;
use crate::memory::PageNumber;
pub use tables::single_cells;
use tables::{Part, Tables};

/// A record, what it answered, and the bench on either side of it.
struct Seen<'a> {
    record: &'a Record,
    answer: Answer,
    before: &'a Bench,
    after: &'a Bench,
}

impl Seen<'_> {
    fn chips(&self) -> (&Chip, &Chip) {
        (&self.before.chip, &self.after.chip)
    }
}

/// Everything counted so far, with the bench that says what happens.
#[derive(Default)]
pub struct Coverage {
    bench: Bench,
    requests: waiting::History,
    counts: counts::History,
    link: link::History,
    parts: parts::History,
    strips: strips::History,
    tables: Tables,
}

impl Coverage {
    /// All records of a stream, from power-up on.
    pub fn stream(&mut self, records: &[Record]) {
        self.bench = Bench::default();
        self.requests = waiting::History::default();
        self.counts = counts::History::default();
        self.link = link::History::default();
        self.parts = parts::History::default();
        self.strips = strips::History::default();
        for record in records {
            self.step(record);
        }
    }

    fn step(&mut self, record: &Record) {
        let before = self.bench.clone();
        let answer = self.bench.step(record);
        let seen = Seen {
            record,
            answer,
            before: &before,
            after: &self.bench,
        };
        let tables = &mut self.tables;
        tables.count(Part::Kinds, kind_name(record[0]), answer_name(answer));
        match record[0] {
            1..=4 => accesses::count(tables, &seen),
            5 => frames::count_wire(tables, &seen),
            6 => frames::count(tables, &seen),
            7 => sends::count(tables, &seen),
            _ => {}
        }
        counts::count(tables, &mut self.counts, &seen);
        waiting::count(tables, &mut self.requests, &seen);
        link::count(tables, &mut self.link, &seen);
        parts::count(tables, &mut self.parts, &seen);
        strips::count(tables, &mut self.strips, &seen);
        states::count(tables, &self.bench.chip);
    }

    /// The cells reached, as lines.
    pub fn cells(&self) -> Vec<String> {
        self.tables.cells()
    }

    /// The cells reached with their counts, as lines.
    pub fn counts(&self) -> Vec<String> {
        self.tables.counts()
    }
}

impl fmt::Display for Coverage {
    fn fmt(&self, f: &mut fmt::Formatter) -> fmt::Result {
        self.tables.fmt(f)
    }
}

fn answer_name(answer: Answer) -> String {
    format!("{:2}", numbers(answer).0)
}

fn kind_name(kind: u8) -> String {
    let names = ["read byte", "read word", "write byte", "write word"];
    let events = ["wire bytes", "frame ends", "send", "link", "part"];
    match kind {
        1..=4 => format!("{kind} {}", names[usize::from(kind - 1)]),
        5..=9 => format!("{kind} {}", events[usize::from(kind - 5)]),
        _ => "unknown kind".into(),
    }
}

/// Are the pages of a packet not adjacent.
fn in_pieces(pages: &[PageNumber]) -> bool {
    let apart = |pair: &[PageNumber]| pair[1].get() != pair[0].get() + 1;
    pages.windows(2).any(apart)
}

fn pieces_name(pages: &[PageNumber]) -> &'static str {
    match in_pieces(pages) {
        true => "in pieces",
        false => "adjacent",
    }
}

fn pages_name(pages: usize) -> String {
    match pages {
        0..=3 => format!("{pages} pages"),
        _ => "more than 3 pages".into(),
    }
}
