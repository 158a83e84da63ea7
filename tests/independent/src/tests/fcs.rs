//! "The frame check sequence": what sends append, and how arrivals are judged.

use super::{allocate, get, put, record, word_at};
use super::{COMMAND, CONTROL, DATA, ENQUEUE, LOAD, POINTER, RCR, RX, TCR};
use crate::bench::{numbers, Bench};
use crate::chip::Chip;
use crate::crc::{fcs, is_bad};
use crate::frame::Arrival;
use crate::wire::{self, Check};

const NOCRC: u16 = 0x0100;
const PAD: u16 = 0x0080;
const TXENA: u16 = 0x0001;
/// Of the packet's control byte: odd data, and an FCS even with NOCRC.
const ODD: u16 = 0x2000;
const CRC: u16 = 0x1000;

/// A packet in TX whose data are ones, so that padding shows.
fn loaded(tcr: u16, count: u16, control: u16) -> Bench {
    let mut bench = Bench::default();
    let chip = &mut bench.chip;
    put(chip, TCR, tcr | TXENA);
    allocate(chip, 8);
    put(chip, POINTER, LOAD | 2);
    put(chip, DATA, count);
    for _ in 0..count / 2 - 3 {
        put(chip, DATA, 0xffff);
    }
    put(chip, DATA, control | 0x00ff);
    put(chip, COMMAND, ENQUEUE);
    bench
}

/// What a send puts out, good and failed.
fn put_out(tcr: u16, count: u16, control: u16) -> Vec<u8> {
    let [good, failed] = [[7, 0, 0], [7, 1, 16]].map(|ending| {
        let mut bench = loaded(tcr, count, control);
        bench.output.fill(0xee);
        let length = usize::from(bench.step(&record(&ending)).unwrap());
        assert!(bench.output[length..].iter().all(|&byte| byte == 0xee));
        bench.output[..length].to_vec()
    });
    assert_eq!(good, failed, "failed sends put out the same bytes");
    good
}

/// So many bytes of data, zeros up to a length, and the FCS or none.
fn expected(data: usize, padded: usize, with_fcs: bool) -> Vec<u8> {
    let mut bytes = vec![0xff; data];
    bytes.resize(padded.max(data), 0);
    if with_fcs {
        bytes.extend(fcs(&bytes));
    }
    bytes
}

/// "unless TCR bit 8 (NOCRC) is set and bit 4 of the packet's control byte is
/// clear; padding goes to 60 before an FCS, or to 64 without one".
#[test]
fn what_a_send_appends() {
    for (count, odd) in [12, 64, 66, 68, 70, 72]
        .map(|count| [(count, 0), (count, ODD)])
        .concat()
    {
        let data = usize::from(count) - if odd == 0 { 6 } else { 5 };
        for (tcr, control, with_fcs) in [
            (0, 0, true),
            (0, CRC, true),
            (NOCRC, 0, false),
            (NOCRC, CRC, true),
        ] {
            let padded = if with_fcs { 60 } else { 64 };
            let plain = put_out(tcr, count, odd | control);
            assert_eq!(plain, expected(data, 0, with_fcs));
            let filled = put_out(tcr | PAD, count, odd | control);
            assert_eq!(filled, expected(data, padded, with_fcs));
        }
    }
}

/// No other bit of TCR or of the control byte asks for an FCS or forbids it.
#[test]
fn other_bits_append_nothing() {
    for bit in (0..16).filter(|bit| ![0, 7, 8].contains(bit)) {
        assert_eq!(put_out(1 << bit, 12, 0).len(), 10, "TCR bit {bit}");
    }
    for bit in [0, 1, 2, 3, 6, 7] {
        let control = 0x0100 << bit;
        assert_eq!(put_out(NOCRC, 12, control).len(), 6, "control bit {bit}");
    }
}

/// "the largest value is 2,047".
#[test]
fn the_largest_send() {
    assert_eq!(put_out(0, 2_048, ODD), expected(2_043, 0, true));
    assert_eq!(put_out(0, 2_048, ODD).len(), 2_047);
    assert_eq!(put_out(NOCRC, 2_048, ODD).len(), 2_043);
    assert_eq!(put_out(PAD, 2_048, 0).len(), 2_046);
}

/// A chip that takes frames, those that are damaged too or not.
fn receiver(stores_damaged: bool) -> Chip {
    let mut chip = Chip::default();
    put(&mut chip, RCR, 0x0102);
    put(&mut chip, CONTROL, if stores_damaged { 0x4000 } else { 0 });
    chip
}

/// A frame of zeros to a station, with the check as its end.
fn frame(length: usize, check: Check) -> Vec<u8> {
    let mut frame = vec![0x55; length];
    frame[0] = 0x02;
    wire::end(&mut frame, check);
    frame
}

/// The status word that a frame is stored with.
fn stored_status(bytes: &[u8], alignment: bool) -> u16 {
    let mut chip = receiver(true);
    assert_eq!(chip.arrive(bytes, alignment), Ok(Arrival::Stored));
    word_at(&mut chip, RX)
}

const WRONG: [Check; 12] = [
    Check::Any,
    Check::NotComplemented,
    Check::OtherOrder,
    Check::OtherBits,
    Check::Cut(1),
    Check::Cut(2),
    Check::Cut(3),
    Check::Cut(4),
    Check::Changed(0, 0x02),
    Check::Changed(12, 0x80),
    Check::Changed(60, 0x01),
    Check::Changed(63, 0x80),
];

/// "the bad CRC flag is no longer given but found from the frame": value 4, or
/// status bit 13 where control bit 14 is set.
#[test]
fn a_wrong_fcs_is_found() {
    for check in WRONG {
        let bytes = frame(64, check);
        assert_eq!(receiver(false).arrive(&bytes, false), Ok(Arrival::Damaged));
        assert_eq!(stored_status(&bytes, false), 0x2000, "{check:?}");
    }
    let bytes = frame(64, Check::Right);
    assert_eq!(receiver(false).arrive(&bytes, false), Ok(Arrival::Stored));
    assert_eq!(stored_status(&bytes, false), 0x0000);
}

/// "judged whatever the alignment flag says", and whatever the length is.
#[test]
fn bad_crc_beside_other_faults() {
    assert_eq!(stored_status(&frame(64, Check::Right), true), 0x8000);
    assert_eq!(stored_status(&frame(64, Check::Any), true), 0xa000);
    assert_eq!(stored_status(&frame(18, Check::Right), false), 0x0400);
    assert_eq!(stored_status(&frame(18, Check::Any), false), 0x2400);
    assert_eq!(stored_status(&frame(63, Check::OtherOrder), true), 0xb400);
}

/// "n is the length, less 4": the FCS is judged, and not stored.
#[test]
fn a_stripped_frame_is_judged_by_its_fcs() {
    for (check, status) in [(Check::Right, 0x0000), (Check::Any, 0x2000)] {
        let mut chip = receiver(true);
        put(&mut chip, RCR, 0x0302);
        let bytes = frame(68, check);
        assert_eq!(chip.arrive(&bytes, false), Ok(Arrival::Stored));
        assert_eq!(word_at(&mut chip, RX), status);
        assert_eq!(get(&mut chip, DATA), 64 + 6);
    }
}

/// "bit 0 of record kind 6 ignored", and every bit but bit 1.
#[test]
fn the_end_of_a_frame_has_one_flag() {
    for (check, value) in [(Check::Right, 0), (Check::Any, 4)] {
        for flags in [0x00, 0x01, 0xfd] {
            assert_eq!(end_of(&frame(64, check), flags), (0, value));
            assert_eq!(end_of(&frame(64, check), flags | 2), (0, 4));
        }
    }
}

/// Answer and value of a frame's end with the flags.
fn end_of(bytes: &[u8], flags: u8) -> (u8, u16) {
    let mut bench = Bench {
        chip: receiver(false),
        ..Bench::default()
    };
    for piece in bytes.chunks(6) {
        let wire = [&[5, piece.len() as u8], piece].concat();
        assert_eq!(numbers(bench.step(&record(&wire))), (0, 0));
    }
    numbers(bench.step(&record(&[6, flags])))
}

/// What a send puts out arrives, unless it goes out without its FCS.
#[test]
fn a_send_comes_back() {
    for (tcr, value) in [(PAD, 0), (PAD | NOCRC, 4)] {
        let bytes = put_out(tcr, 12, 0);
        assert_eq!(bytes.len(), 64);
        assert_eq!(is_bad(&bytes), value == 4);
        assert_eq!(end_of(&bytes, 0), (0, value));
    }
}
