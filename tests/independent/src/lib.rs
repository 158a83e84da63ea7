//! A second model of the LAN91C96 and the LAN91C94, written from documents 01
//! and 02 and their decided points alone. It shares no line with the proved model, so a
//! difference between the two is a slip in one of them.

pub mod address;
pub mod bench;
pub mod chip;
pub mod coverage;
pub mod covering;
pub mod crc;
pub mod fifo;
pub mod frame;
pub mod generator;
pub mod link;
pub mod memory;
pub mod mmu;
pub mod part;
pub mod places;
pub mod private;
pub mod random;
pub mod reads;
pub mod refusal;
pub mod registers;
pub mod send;
pub mod told;
pub mod watch;
pub mod wire;

#[cfg(test)]
mod tests;
