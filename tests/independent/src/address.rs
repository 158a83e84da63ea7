//! Destination addresses and the hash into the multicast table.

use crate::crc;

/// Six address bytes in wire order.
#[derive(Clone, Copy, Debug, Default, PartialEq, Eq)]
pub struct MacAddress(pub [u8; 6]);

impl MacAddress {
    pub const BROADCAST: Self = Self([0xff; 6]);

    /// The first six bytes of a frame.
    pub fn leading(bytes: &[u8]) -> Self {
        let mut address = [0; 6];
        address.copy_from_slice(&bytes[..6]);
        Self(address)
    }

    pub fn is_broadcast(self) -> bool {
        self == Self::BROADCAST
    }

    /// A group address has the first bit on the wire set.
    pub fn is_group(self) -> bool {
        self.0[0] & 1 != 0
    }

    /// "the CRC of IEEE 802.3 run over the six address bytes ..; its top six
    /// bits".
    pub fn hash(self) -> Hash {
        Hash((crc::remainder(&self.0) >> 26) as u8)
    }
}

/// A place in the multicast table, 0 to 63.
#[derive(Clone, Copy, Debug, PartialEq, Eq)]
pub struct Hash(u8);

impl Hash {
    pub fn get(self) -> u8 {
        self.0
    }

    /// "The upper three choose the table byte, the lower three the bit."
    pub fn is_set_in(self, table: &[u8; 8]) -> bool {
        table[usize::from(self.0 >> 3)] >> (self.0 & 7) & 1 != 0
    }
}
