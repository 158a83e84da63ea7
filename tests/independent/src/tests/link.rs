//! "Link state".

use super::{allocate, bank, frame_of, get, loaded, put, record, send, word_at};
use super::{COMMAND, CONTROL, ECR, ENQUEUE, EPHSR, LOOK, MIR, PACKET, POINTER, RCR, TCR};
use crate::bench::{numbers, Bench, BenchOn, StripBench};
use crate::chip::Chip;
use crate::frame::Arrival;
use crate::link::Link;
use crate::memory::Layout;
use crate::refusal::Refusal;
use crate::registers::Width::{Byte, Word};
use crate::told::tell;
use crate::watch;

const UP: Link = Link {
    up: true,
    changed: false,
};
const UP_CHANGED: Link = Link {
    up: true,
    changed: true,
};
const DOWN: Link = Link {
    up: false,
    changed: false,
};
const DOWN_CHANGED: Link = Link {
    up: false,
    changed: true,
};

/// The low byte of the control register, and the interrupt status and mask.
const CONTROL_LOW: u8 = 0xc;
const INTERRUPT: (u16, u8) = (2, 0xc);
/// "control bit 7".
const LINK_ENABLE: u16 = 0x0080;
const EPH: u8 = 1 << 5;

fn plug(chip: &mut Chip, state: u8) {
    assert_eq!(chip.plug(state), Ok(()));
}

fn eph(chip: &Chip) -> bool {
    chip.interrupt_status() & EPH != 0
}

/// A change of the link raises EPH.
fn raised() -> Chip {
    let mut chip = Chip::default();
    put(&mut chip, CONTROL, LINK_ENABLE);
    plug(&mut chip, 1);
    assert!(eph(&chip));
    chip
}

/// "At power-up the link is down with no change seen".
#[test]
fn power_up() {
    let mut chip = Chip::default();
    assert_eq!(chip.registers.link, DOWN);
    assert_eq!(get(&mut chip, EPHSR), 0);
    put(&mut chip, CONTROL, LINK_ENABLE);
    assert_eq!(chip.interrupt_status(), 0x04);
}

/// "EPHSR bit 14 shows it": to a word read and to one of the high byte.
#[test]
fn bit_14_shows_the_link() {
    let mut chip = Chip::default();
    for (state, word, high) in [
        (1, 0x4000, 0x40),
        (1, 0x4000, 0x40),
        (0, 0, 0),
        (1, 0x4000, 0x40),
    ] {
        plug(&mut chip, state);
        assert_eq!(get(&mut chip, EPHSR), word);
        assert_eq!(chip.read(Byte, 3), Ok(high));
        assert_eq!(chip.read(Byte, 2), Ok(0));
    }
    assert_eq!(chip.write(Byte, 3, 0), Err(Refusal::ReadOnly));
    assert_eq!(get(&mut chip, EPHSR), 0x4000);
}

/// "shown is the stored EPHSR with bit 14 replaced by the link, whatever a lent
/// record has stored there".
#[test]
fn a_stored_bit_14_is_not_shown() {
    let mut chip = loaded(12);
    chip.registers.ephsr = 0x5008;
    assert_eq!(get(&mut chip, EPHSR), 0x1008);
    plug(&mut chip, 1);
    assert_eq!(get(&mut chip, EPHSR), 0x5008);
    chip.registers.ephsr = 0x1008;
    assert_eq!(get(&mut chip, EPHSR), 0x5008);
    plug(&mut chip, 0);
    chip.registers.ephsr = 0x5008;
    assert_eq!(send(&mut chip, 0, 0, 0), Ok(10));
    assert_eq!(word_at(&mut chip, LOOK), 0x1001);
}

/// In "the status word in memory" too, good or failed; it is that of the send,
/// whatever becomes of the cable then.
#[test]
fn the_status_word_shows_the_link() {
    for (state, outcome, status) in [
        (0, 0, 0x0001),
        (1, 0, 0x4001),
        (0, 5, 0x8000),
        (1, 5, 0xc000),
    ] {
        let mut chip = loaded(12);
        plug(&mut chip, state);
        assert_eq!(send(&mut chip, outcome, 0, 0), Ok(10));
        assert_eq!(get(&mut chip, EPHSR), status);
        plug(&mut chip, 1 - state);
        assert_eq!(get(&mut chip, EPHSR), status ^ 0x4000);
        assert_eq!(word_at(&mut chip, LOOK), status);
    }
}

/// "The same state again is no change", and leaves a change that was seen;
/// there and back again is one.
#[test]
fn what_counts_as_a_change() {
    let mut chip = Chip::default();
    plug(&mut chip, 0);
    assert_eq!(chip.registers.link, DOWN);
    plug(&mut chip, 1);
    assert_eq!(chip.registers.link, UP_CHANGED);
    plug(&mut chip, 1);
    assert_eq!(chip.registers.link, UP_CHANGED);
    plug(&mut chip, 0);
    assert_eq!(chip.registers.link, DOWN_CHANGED);
    put(&mut chip, CONTROL, 0);
    plug(&mut chip, 0);
    assert_eq!(chip.registers.link, DOWN);
    plug(&mut chip, 1);
    put(&mut chip, CONTROL, 0);
    plug(&mut chip, 1);
    assert_eq!(chip.registers.link, UP);
    plug(&mut chip, 0);
    assert_eq!(chip.registers.link, DOWN_CHANGED);
}

/// "raising EPH while control bit 7 is set": by no other bit, and by a change
/// alone.
#[test]
fn a_change_raises_eph_under_bit_7() {
    for bit in 0..16 {
        for state in [0, 1] {
            let mut chip = Chip::default();
            put(&mut chip, CONTROL, 1 << bit);
            plug(&mut chip, state);
            assert_eq!(eph(&chip), bit == 7 && state == 1, "bit {bit}");
            plug(&mut chip, 0);
            assert_eq!(eph(&chip), bit == 7 && state == 1, "bit {bit}");
        }
    }
    let mut chip = Chip::default();
    put(&mut chip, CONTROL, !LINK_ENABLE);
    plug(&mut chip, 1);
    assert!(!eph(&chip));
}

/// "01's EPH rule gains a third term": each of them is enough, and the other
/// two stand as they were.
#[test]
fn the_other_terms_stand() {
    let mut chip = loaded(12);
    plug(&mut chip, 1);
    put(&mut chip, CONTROL, 0x0020);
    assert_eq!(send(&mut chip, 5, 0, 0), Ok(10));
    assert!(eph(&chip), "a failed send under bit 5");
    put(&mut chip, CONTROL, 0x00c0);
    assert!(!eph(&chip), "bits 6 and 7 are not its");
    plug(&mut chip, 0);
    assert!(eph(&chip));
    chip.registers.ephsr = 0x1000;
    put(&mut chip, CONTROL, 0x0040);
    assert!(eph(&chip), "a counter under bit 6");
    put(&mut chip, CONTROL, 0x00a0);
    assert!(!eph(&chip), "bits 5 and 7 are not its");
}

/// "any write to a control byte forgets the change, the one that sets bit 7
/// too", and one that changes no bit.
#[test]
fn a_write_of_control_forgets() {
    let writes = [
        (Byte, CONTROL_LOW, 0x0080),
        (Byte, CONTROL_LOW + 1, 0),
        (Byte, CONTROL_LOW + 1, 0x00ff),
        (Word, CONTROL_LOW, 0x0080),
        (Word, CONTROL_LOW, 0xffff),
    ];
    for (width, offset, value) in writes {
        let mut chip = raised();
        bank(&mut chip, 1);
        chip.write(width, offset, value).unwrap();
        assert_eq!(chip.registers.link, UP);
        assert_ne!(chip.registers.control & LINK_ENABLE, 0);
        assert!(!eph(&chip));
        plug(&mut chip, 0);
        assert!(eph(&chip), "the next change is one");
    }
    let mut chip = Chip::default();
    plug(&mut chip, 1);
    bank(&mut chip, 1);
    chip.write(Byte, CONTROL_LOW, LINK_ENABLE).unwrap();
    assert!(!eph(&chip));
}

/// No other write forgets it: not the acknowledge of EPH, not the mask, and not
/// a refused one at the control register itself. Nor does a read.
#[test]
fn nothing_else_forgets() {
    let mut chip = raised();
    let places = [
        ((0, 0x0), 0x0001),
        ((0, 0x0), 0x0000),
        ((0, 0x4), 0x0103),
        ((0, 0xa), 0x0003),
        ((1, 0x4), 0xffff),
        ((1, 0x8), 0xffff),
        (PACKET, 0x0003),
        (POINTER, 0xffff),
        (INTERRUPT, 0x0020),
        (INTERRUPT, 0xffff),
        ((3, 0x6), 0xffff),
        ((5, 0xc), 0xffff),
    ];
    for (at, value) in places {
        put(&mut chip, at, value);
        assert_eq!(chip.registers.link, UP_CHANGED, "{at:x?}");
        assert!(eph(&chip));
    }
    bank(&mut chip, 2);
    chip.write(Byte, INTERRUPT.1 + 1, 0).unwrap();
    assert_eq!(chip.registers.link, UP_CHANGED);
    bank(&mut chip, 1);
    assert_eq!(
        chip.write(Word, CONTROL_LOW + 1, 0),
        Err(Refusal::BadOffset)
    );
    for place in [CONTROL, EPHSR, ECR, INTERRUPT, RCR, TCR] {
        get(&mut chip, place);
        assert_eq!(chip.registers.link, UP_CHANGED, "{place:x?}");
    }
}

/// "a soft reset keeps the link and forgets the change".
#[test]
fn a_soft_reset_keeps_the_link() {
    for (state, before, after) in [
        (&[1][..], UP_CHANGED, UP),
        (&[1, 0], DOWN_CHANGED, DOWN),
        (&[0], DOWN, DOWN),
    ] {
        for width in [Byte, Word] {
            let mut chip = Chip::default();
            put(&mut chip, CONTROL, LINK_ENABLE);
            state.iter().for_each(|&state| plug(&mut chip, state));
            assert_eq!(chip.registers.link, before);
            bank(&mut chip, 0);
            match width {
                Byte => chip.write(Byte, 5, 0x80).unwrap(),
                Word => chip.write(Word, 4, 0x8000).unwrap(),
            }
            assert_eq!(chip.registers.link, after);
            let shown = if after.up { 0x4000 } else { 0 };
            assert_eq!(get(&mut chip, EPHSR), shown);
            assert_eq!(chip.interrupt_status(), 0x04);
        }
    }
}

/// 40h leaves both; so does every other command, be it refused or not.
#[test]
fn commands_leave_both() {
    let mut chip = raised();
    for command in [
        0x00, 0x20, 0x27, 0x40, 0x60, 0x80, 0xa0, 0xc0, 0xe0, 0x10, 0xff,
    ] {
        bank(&mut chip, 2);
        let _ = chip.write(Byte, 0, command);
        assert_eq!(chip.registers.link, UP_CHANGED, "{command:02x}h");
        assert_eq!(get(&mut chip, EPHSR), 0x4000);
    }
}

/// A write to TCR clears other bits of EPHSR, a read of ECR bit 12: "sends leave
/// it", and so do these.
#[test]
fn sends_tcr_and_ecr_leave_both() {
    let mut chip = loaded(12);
    plug(&mut chip, 1);
    for _ in 0..15 {
        assert_eq!(send(&mut chip, 0, 1, 0), Ok(10));
        assert_eq!(chip.registers.link, UP_CHANGED);
        put(&mut chip, COMMAND, ENQUEUE);
    }
    assert_eq!(get(&mut chip, EPHSR), 0x5001);
    assert_eq!(word_at(&mut chip, LOOK), 0x5001);
    put(&mut chip, TCR, 1);
    assert_eq!(get(&mut chip, EPHSR), 0x5000);
    assert_eq!(get(&mut chip, ECR), 0x000f);
    assert_eq!(get(&mut chip, EPHSR), 0x4000);
    assert_eq!(chip.registers.link, UP_CHANGED);
    assert_eq!(send(&mut chip, 1, 16, 0), Ok(10));
    assert_eq!(get(&mut chip, EPHSR), 0x4014);
    assert_eq!(chip.registers.link, UP_CHANGED);
}

/// "Frames arrive and sends finish as before, whatever the link."
#[test]
fn frames_and_sends_do_not_care() {
    for states in [&[][..], &[1], &[1, 0]] {
        let mut chip = loaded(12);
        put(&mut chip, RCR, 0x0102);
        states.iter().for_each(|&state| plug(&mut chip, state));
        let link = chip.registers.link;
        assert_eq!(chip.arrive(&frame_of(64), false), Ok(Arrival::Stored));
        assert_eq!(send(&mut chip, 0, 0, 0), Ok(10));
        assert_eq!(get(&mut chip, (2, 0x4)), 0x0100);
        assert_eq!(get(&mut chip, MIR), 0x0f18);
        assert_eq!(chip.registers.link, link);
    }
}

/// "byte 1 is 0 or 1. Refusals: 11 for any other byte 1"; "Unused bytes are
/// ignored", and what is done answers 0.
#[test]
fn records_of_kind_8() {
    let mut bench = Bench::default();
    let mut answer = |bytes: &[u8]| {
        let answer = numbers(bench.step(&record(bytes)));
        (answer, bench.chip.registers.link)
    };
    for state in 2..=255 {
        assert_eq!(answer(&[8, state]), ((11, 0), DOWN), "{state}");
    }
    assert_eq!(answer(&[8, 0]), ((0, 0), DOWN));
    assert_eq!(answer(&[8, 1, 2, 3, 4, 5, 6, 7]), ((0, 0), UP_CHANGED));
    assert_eq!(answer(&[8, 255, 1]), ((11, 0), UP_CHANGED));
    assert_eq!(answer(&[8, 2, 0]), ((11, 0), UP_CHANGED));
    assert_eq!(answer(&[8, 0, 1, 1, 1, 1, 1, 1]), ((0, 0), DOWN_CHANGED));
}

/// A link event leaves the gathered wire bytes, done or refused.
#[test]
fn gathered_bytes_stay() {
    let mut bench = Bench::default();
    put(&mut bench.chip, RCR, 0x0102);
    for (at, piece) in frame_of(64).chunks(6).enumerate() {
        let wire = [&[5, piece.len() as u8], piece].concat();
        assert_eq!(bench.step(&record(&wire)), Ok(0));
        let _ = bench.step(&record(&[8, at as u8 % 3]));
    }
    assert_eq!(bench.gathered.as_slice(), frame_of(64));
    assert_eq!(bench.step(&record(&[6])), Ok(0), "with its right FCS");
}

/// The line goes up in the event itself, and down in the write that forgets.
#[test]
fn the_line_follows_a_change() {
    let records = [
        &[3, 0xe, 1][..],
        &[3, 0xc, 0x80],
        &[3, 0xe, 2],
        &[3, 0xd, 0x20],
        &[8, 0],
        &[8, 1],
        &[8, 2],
        &[3, 0xc, 0x20], // acknowledged in vain
        &[3, 0xe, 1],
        &[3, 0xd, 0x00],
        &[8, 1],
        &[8, 0],
    ];
    let mut bench = Bench::default();
    let mut lines = Vec::new();
    for (number, record) in (1..).zip(records.map(record)) {
        let answer = bench.step(&record);
        watch::push_line(&mut lines, number, record[0], answer, &bench);
    }
    let expected = "1 0 0000 0\n2 0 0000 0\n3 0 0000 0\n4 0 0000 0\n5 0 0000 0\n6 0 0000 1\n\
                    7 11 0000 1\n8 0 0000 1\n9 0 0000 1\n10 0 0000 0\n11 0 0000 0\n12 0 0000 1\n";
    assert_eq!(String::from_utf8(lines).unwrap(), expected);
}

/// Records with the number and value that each is answered.
const RUN: [(&[u8], (u8, u16)); 22] = [
    (&[2, 0x2], (0, 0x0000)),
    (&[8, 1], (0, 0)),
    (&[2, 0x2], (0, 0x4000)),
    (&[4, 0x0, 1, 0], (0, 0)), // TXENA
    (&[3, 0xe, 1], (0, 0)),
    (&[3, 0xc, 0x80], (0, 0)),
    (&[3, 0xe, 2], (0, 0)),
    (&[1, 0xc], (0, 0x04)), // forgotten
    (&[3, 0x0, 0x20], (0, 0)),
    (&[4, 0x6, 2, 0x40], (0, 0)),
    (&[4, 0x8, 12, 0], (0, 0)),
    (&[3, 0x0, 0xc0], (0, 0)),
    (&[7, 2, 1], (0, 10)),
    (&[4, 0x6, 0, 0x60], (0, 0)),
    (&[2, 0x8], (0, 0x4202)),
    (&[8, 0], (0, 0)),
    (&[1, 0xc], (0, 0x2e)),
    (&[8, 3], (11, 0)),
    (&[3, 0xe, 0], (0, 0)),
    (&[2, 0x2], (0, 0x0202)),
    (&[4, 0x4, 0, 0x80], (0, 0)), // soft reset
    (&[2, 0x2], (0, 0x0000)),
];

fn run_on<L: Layout>() -> BenchOn<L> {
    let mut bench = BenchOn::default();
    for (bytes, expected) in RUN {
        let answer = numbers(bench.step(&record(bytes)));
        assert_eq!(answer, expected, "{bytes:x?}");
    }
    bench
}

/// The chip of strips has the same link.
#[test]
fn both_chips_have_a_link() {
    let paged: Bench = run_on();
    let strips: StripBench = run_on();
    assert_eq!(paged.chip.registers.link, DOWN);
    assert_eq!(strips.chip.registers.link, DOWN);
}

/// The last two numbers of the registers' line; EPHSR is the stored one.
#[test]
fn the_link_is_told() {
    let turns: [(&[u8], &str); 4] = [
        (&[], " 1 0 0 0 0"),
        (&[1], " 1 0 0 1 1"),
        (&[1, 0], " 1 0 0 0 1"),
        (&[1, 9], " 1 0 0 1 1"),
    ];
    for (states, end) in turns {
        let records: Vec<_> = states.iter().map(|&state| record(&[8, state])).collect();
        let told = tell(&records);
        let registers = told.lines().nth(records.len()).unwrap();
        assert!(registers.starts_with("registers 0 0 0 0 "), "{registers}");
        assert!(registers.ends_with(end), "{registers}");
    }
}

/// An allocation and a release between two events are no event of the link.
#[test]
fn pages_do_not_care() {
    let mut chip = raised();
    allocate(&mut chip, 8);
    assert_eq!(get(&mut chip, MIR), 0x1018);
    put(&mut chip, COMMAND, 0xa0);
    assert_eq!(get(&mut chip, MIR), 0x1818);
    assert_eq!(chip.registers.link, UP_CHANGED);
}
