//! The CRC of IEEE 802.3, from which the address hash and the frame check
//! sequence (FCS) both come.

/// The standard's generator: x^32 + x^26 + x^23 + x^22 + x^16 + x^12 + x^11 +
/// x^10 + x^8 + x^7 + x^5 + x^4 + x^2 + x + 1, its highest power left out.
pub const GENERATOR: u32 = 0x04c1_1db7;
/// How many bytes the FCS has.
pub const FCS_SIZE: usize = 4;

/// What a byte in the register's top eight bits makes of the register, once
/// they are shifted out.
static SHIFTED_OUT: [u32; 256] = shifted_out();

const fn shifted_out() -> [u32; 256] {
    let mut table = [0; 256];
    let mut byte = 0;
    while byte < table.len() {
        table[byte] = shift_eight((byte as u32) << 24);
        byte += 1;
    }
    table
}

/// Eight bits to the left; each one that falls out takes the generator along.
const fn shift_eight(mut register: u32) -> u32 {
    let mut bits = 0;
    while bits < 8 {
        let falls_out = register >> 31;
        register = (register << 1) ^ (falls_out * GENERATOR);
        bits += 1;
    }
    register
}

/// The remainder of bytes "in wire bit order, preset to ones, not complemented,
/// shifted left". Each byte goes out lowest bit first.
pub fn remainder(bytes: &[u8]) -> u32 {
    bytes.iter().fold(u32::MAX, |register, &byte| {
        let top = (register >> 24) as u8 ^ byte.reverse_bits();
        register << 8 ^ SHIFTED_OUT[usize::from(top)]
    })
}

/// "complemented, bit 31 of the remainder first on the wire": as bit 0 of the
/// first byte.
pub fn fcs(bytes: &[u8]) -> [u8; FCS_SIZE] {
    on_wire(!remainder(bytes))
}

/// The register's bits in four bytes, as they go out from bit 31 on.
pub fn on_wire(register: u32) -> [u8; FCS_SIZE] {
    register.reverse_bits().to_le_bytes()
}

/// Bad CRC: "exactly where its last four bytes are not the FCS of the rest".
pub fn is_bad(frame: &[u8]) -> bool {
    let (rest, last) = frame.split_at(frame.len().saturating_sub(FCS_SIZE));
    last != fcs(rest)
}
