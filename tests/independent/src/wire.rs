//! Frames as a wire brings them: with their FCS, or with one that is wrong in a
//! way that a slip would take for right.

use crate::crc::{fcs, on_wire, remainder, FCS_SIZE};

/// How a frame's last bytes go with the rest.
#[derive(Clone, Copy, Debug, PartialEq, Eq)]
pub enum Check {
    /// "the FCS of the rest".
    Right,
    /// Whatever they are.
    Any,
    /// The remainder itself.
    NotComplemented,
    /// The FCS, its last byte first.
    OtherOrder,
    /// The FCS, the bits of each byte in the other order.
    OtherBits,
    /// The FCS without its last bytes, 1 to 4: the frame is cut short.
    Cut(usize),
    /// The FCS, but then the byte at a place of the frame is changed by bits.
    Changed(usize, u8),
}

/// Makes a frame's last bytes those of the check. One that has no bytes before
/// them stays as it is.
pub fn end(frame: &mut [u8], check: Check) {
    if frame.len() <= FCS_SIZE {
        return;
    }
    let missing = match check {
        Check::Cut(missing) => missing,
        _ => 0,
    };
    let (rest, last) = frame.split_at_mut(frame.len() + missing - FCS_SIZE);
    let right = fcs(rest);
    match check {
        Check::Any => {}
        Check::Right | Check::Changed(..) => last.copy_from_slice(&right),
        Check::NotComplemented => last.copy_from_slice(&on_wire(remainder(rest))),
        Check::OtherOrder => last.copy_from_slice(&reversed(right)),
        Check::OtherBits => last.copy_from_slice(&right.map(u8::reverse_bits)),
        Check::Cut(_) => last.copy_from_slice(&right[..FCS_SIZE - missing]),
    }
    if let Check::Changed(place, bits) = check {
        frame[place] ^= bits;
    }
}

fn reversed(mut bytes: [u8; FCS_SIZE]) -> [u8; FCS_SIZE] {
    bytes.reverse();
    bytes
}
