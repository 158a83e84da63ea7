//! ECR: each nibble grows, comes to 15 and stops there.

use super::interrupts::under_controls;
use super::script::{Bytes, Script};
use crate::chip::{control, interrupt, rcr, tcr};
use crate::places::*;

/// How a send ends: outcome, collisions, deferral.
type Ending = [u8; 3];

fn set_up(script: &mut Script) {
    script.put(CONTROL, control::RECEIVE_BAD);
    script.put(RCR, rcr::RXEN);
    let packet = script.filled(18);
    script.choose(packet);
    script.mask(interrupt::EPH);
}

/// The chosen packet once more, with nothing left in completion.
fn send(script: &mut Script, [outcome, collisions, deferral]: Ending) {
    if script.chip().registers.tcr & tcr::TXENA == 0 {
        script.enable(0);
    }
    script.command(ENQUEUE);
    script.send(outcome, collisions, deferral);
    script.acknowledge(interrupt::COMPLETION);
}

/// Fourteen good sends, and then the endings.
fn run(script: &mut Script, [collisions, deferral]: [u8; 2], endings: &[Ending]) {
    for _ in 0..14 {
        send(script, [0, collisions, deferral]);
    }
    for &ending in endings {
        send(script, ending);
        script.get(EPHSR);
    }
}

/// Reads ECR by the bytes, twice, with EPHSR behind it.
fn clear(script: &mut Script, bytes: Bytes) {
    script.get_bytes(ECR, bytes);
    script.get(EPHSR);
    script.get_bytes(ECR, bytes);
}

/// Good sends come to 15.
pub fn good(script: &mut Script) {
    set_up(script);
    send(script, [2, 1, 0]); // "Counting a failed single collision" is a slip
    run(
        script,
        [2, 1],
        &[[0, 2, 1], [0, 15, 1], [2, 3, 1], [1, 16, 1]],
    );
    under_controls(script);
    clear(script, Bytes::Low);
    run(script, [1, 2], &[[0, 1, 2], [0, 1, 2], [2, 1, 2]]);
    clear(script, Bytes::High);
}

/// Failed sends grow a nibble, and bring it to 15.
pub fn failed(script: &mut Script) {
    set_up(script);
    for ending in [[2, 2, 1], [5, 15, 2], [1, 16, 0], [5, 1, 0]] {
        send(script, ending);
    }
    clear(script, Bytes::Both);
    run(script, [2, 1], &[[2, 2, 1], [0, 0, 1], [0, 2, 0]]);
    under_controls(script);
    script.enable(0);
    under_controls(script);
    clear(script, Bytes::Both);
    run(script, [0, 2], &[[5, 0, 2], [5, 1, 2], [0, 0, 2]]);
    clear(script, Bytes::High);
}
