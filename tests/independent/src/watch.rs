//! The lines of the program "watch": the bench's, with the interrupt line and
//! the bytes put out behind them.

use crate::bench::{push_answer, push_hex, Answer, BenchOn};
use crate::chip::ChipOn;
use crate::memory::Layout;

/// Appends a record's line, from the bench as the record left it: "for a send
/// that is done, a space and the bytes put out"; "a line with 17 has its
/// interrupt line as well".
pub fn push_line<L: Layout>(
    lines: &mut Vec<u8>,
    number: u64,
    kind: u8,
    answer: Answer,
    bench: &BenchOn<L>,
) {
    push_seen(lines, number, answer, &bench.chip);
    if let Some(bytes) = bench.put_out(kind, answer) {
        lines.push(b' ');
        push_hex(lines, bytes);
    }
    lines.push(b'\n');
}

/// "after number, answer and value, a space and the interrupt line after the
/// record (0 or 1)".
pub fn push_seen<L: Layout>(lines: &mut Vec<u8>, number: u64, answer: Answer, chip: &ChipOn<L>) {
    push_answer(lines, number, answer);
    lines.extend_from_slice(if chip.line_is_up() { b" 1" } else { b" 0" });
}
