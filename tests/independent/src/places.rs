//! Where a driver finds the registers, and the MMU's commands.

/// A register by bank and even offset.
#[derive(Clone, Copy)]
pub struct Place(pub u8, pub u8);

pub const TCR: Place = Place(0, 0x0);
pub const EPHSR: Place = Place(0, 0x2);
pub const RCR: Place = Place(0, 0x4);
pub const ECR: Place = Place(0, 0x6);
pub const MIR: Place = Place(0, 0x8);
pub const RESERVED: Place = Place(0, 0xa);
pub const CONTROL: Place = Place(1, 0xc);
pub const COMMAND: Place = Place(2, 0x0);
pub const PACKET: Place = Place(2, 0x2);
pub const HEADS: Place = Place(2, 0x4);
pub const POINTER: Place = Place(2, 0x6);
pub const DATA: Place = Place(2, 0x8);
pub const INTERRUPT: Place = Place(2, 0xc);

pub const ALLOCATE: u8 = 0x20;
pub const FREE_ALL: u8 = 0x40;
pub const REMOVE_RX: u8 = 0x60;
pub const RELEASE_RX: u8 = 0x80;
pub const RELEASE: u8 = 0xa0;
pub const ENQUEUE: u8 = 0xc0;
pub const EMPTY_TX: u8 = 0xe0;
