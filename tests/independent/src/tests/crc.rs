//! The CRC against vectors from outside: the standard's, and Python's zlib.

use crate::crc::{fcs, is_bad, on_wire, remainder, GENERATOR};

/// A UDP frame of 64 bytes; the last four are the FCS that zlib gives it.
const UDP_FRAME: [u8; 64] = [
    0x00, 0x10, 0xa4, 0x7b, 0xea, 0x80, 0x00, 0x12, 0x34, 0x56, 0x78, 0x90, 0x08, 0x00, 0x45, 0x00,
    0x00, 0x2e, 0xb3, 0xfe, 0x00, 0x00, 0x80, 0x11, 0x05, 0x40, 0xc0, 0xa8, 0x00, 0x2c, 0xc0, 0xa8,
    0x00, 0x04, 0x04, 0x00, 0x04, 0x00, 0x00, 0x1a, 0x2d, 0xe8, 0x00, 0x01, 0x02, 0x03, 0x04, 0x05,
    0x06, 0x07, 0x08, 0x09, 0x0a, 0x0b, 0x0c, 0x0d, 0x0e, 0x0f, 0x10, 0x11, 0xb3, 0x31, 0x88, 0x1b,
];

/// "26h 39h F4h CBh": the check value CBF43926h, lowest byte first.
#[test]
fn the_check_value() {
    assert_eq!(fcs(b"123456789"), [0x26, 0x39, 0xf4, 0xcb]);
}

/// `zlib.crc32(bytes).to_bytes(4, "little")` of Python 3, written down.
#[test]
fn sums_of_zlib() {
    let counting = |length: usize, factor: usize| -> Vec<u8> {
        (0..length).map(|at| (at * factor) as u8).collect()
    };
    let vectors: [(Vec<u8>, [u8; 4]); 9] = [
        (vec![], [0x00, 0x00, 0x00, 0x00]),
        (vec![0x00], [0x8d, 0xef, 0x02, 0xd2]),
        (vec![0xff; 4], [0xff, 0xff, 0xff, 0xff]),
        (vec![0x00; 60], [0x08, 0x89, 0x12, 0x04]),
        (vec![0x00; 64], [0x36, 0x63, 0x8d, 0x75]),
        (counting(1_514, 1), [0x05, 0x07, 0x87, 0xe7]),
        (counting(2_043, 7), [0x37, 0x7c, 0xf4, 0x58]),
        (
            [[0xff; 6].as_slice(), &[0; 54]].concat(),
            [0x1f, 0x94, 0xc0, 0x42],
        ),
        (
            b"The quick brown fox jumps over the lazy dog".to_vec(),
            [0x39, 0xa3, 0x4f, 0x41],
        ),
    ];
    for (bytes, expected) in vectors {
        assert_eq!(fcs(&bytes), expected, "{} bytes", bytes.len());
    }
}

/// Over a frame with its FCS the standard's remainder is C704DD7Bh, whatever
/// the frame.
#[test]
fn the_residue_over_a_frame_with_its_fcs() {
    assert_eq!(remainder(&UDP_FRAME), 0xc704_dd7b);
    let check = [b"123456789".as_slice(), &[0x26, 0x39, 0xf4, 0xcb]].concat();
    assert_eq!(remainder(&check), 0xc704_dd7b);
}

/// Each wire bit by itself, as the standard's shift register has it.
fn bit_by_bit(bytes: &[u8]) -> u32 {
    let bits = bytes
        .iter()
        .flat_map(|byte| (0..8).map(move |bit| u32::from(byte >> bit & 1)));
    bits.fold(u32::MAX, |register, bit| {
        let feedback = register >> 31 ^ bit;
        (register << 1) ^ (feedback * GENERATOR)
    })
}

#[test]
fn the_table_is_the_shift_register() {
    for byte in 0..=255 {
        assert_eq!(remainder(&[byte]), bit_by_bit(&[byte]), "{byte:02x}");
    }
    assert_eq!(remainder(&UDP_FRAME), bit_by_bit(&UDP_FRAME));
}

/// "exactly where its last four bytes are not the FCS of the rest": no changed
/// bit passes, and neither does a slip of order or sign.
#[test]
fn a_changed_frame_is_bad() {
    assert!(!is_bad(&UDP_FRAME));
    for bit in 0..8 * UDP_FRAME.len() {
        let mut frame = UDP_FRAME;
        frame[bit / 8] ^= 1 << (bit % 8);
        assert!(is_bad(&frame), "bit {bit}");
    }
    let (rest, last) = UDP_FRAME.split_at(60);
    let with = |last: &[u8]| [rest, last].concat();
    assert!(!is_bad(&with(last)));
    assert!(is_bad(&with(&on_wire(remainder(rest)))));
    assert!(is_bad(&with(&[last[3], last[2], last[1], last[0]])));
    for cut in 1..=4 {
        assert!(is_bad(&UDP_FRAME[..64 - cut]), "cut by {cut}");
    }
}
