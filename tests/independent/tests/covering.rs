//! The covering streams against the list of cells that they are made for, and
//! the generated ones against the covering ones.

use std::collections::BTreeSet;

use independent::bench::Record;
use independent::coverage::{single_cells, Coverage};
use independent::covering;
use independent::generator::{self, Reading};
use independent::part::Part;

/// The cells that streams reach, each from power-up.
fn reached(streams: impl Iterator<Item = Vec<Record>>) -> BTreeSet<String> {
    let mut coverage = Coverage::default();
    for records in streams {
        coverage.stream(&records);
    }
    single_cells(coverage.cells().iter().map(String::as_str))
}

fn covered() -> BTreeSet<String> {
    reached(covering::streams().map(|(_, records)| records))
}

#[test]
fn every_cell_is_reached() {
    let covered = covered();
    let wanted = single_cells(include_str!("../../definitions/cells").lines());
    let missing: Vec<_> = wanted.difference(&covered).collect();
    assert!(missing.is_empty(), "not reached: {missing:#?}");
}

/// The cells of requests that wait, of the link, of the parts, of sends refused for
/// their count or beside it, and of check sequences that arrive or are appended.
const STEERED_INTO: [&str; 7] = [
    "waiting request",
    "link",
    "parts ",
    "byte count",
    "| send 1",
    "check sequence",
    "what they append",
];

/// What a first record leads to that no generated stream has: a part's byte is
/// none's, or the kind unknown.
const NOT_FIRST: [&str; 3] = ["a refused first", "an unknown first", "| first, 11"];

/// Whatever these can meet, the streams of tests/compare let them meet.
#[test]
fn generated_streams_meet_what_they_are_steered_into() {
    let streams = [
        (None, 1, 100_000),
        (None, 2, 60_000),
        (Some(Part::Lan91c94), 3, 100_000),
        (Some(Part::Lan91c96), 4, 20_000),
    ];
    let generated = reached(
        streams
            .into_iter()
            .map(|(part, seed, count)| generator::stream(part, Reading::Free, seed, count)),
    );
    let covered = covered();
    let steered = |cell: &&String| {
        let cell = cell.to_lowercase();
        let within = |names: &[&str]| names.iter().any(|name| cell.contains(name));
        within(&STEERED_INTO) && !within(&NOT_FIRST)
    };
    let missing: Vec<_> = covered.difference(&generated).filter(steered).collect();
    assert!(missing.is_empty(), "not reached: {missing:#?}");
}

/// A stream's name is its file's, and its theorem's.
#[test]
fn names_are_distinct() {
    let names: Vec<_> = covering::streams().map(|(name, _)| name).collect();
    let distinct: BTreeSet<_> = names.iter().collect();
    assert_eq!(distinct.len(), names.len());
}
