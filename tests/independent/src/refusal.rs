//! "Numbers the bench prints".

/// Why a step was refused. "A refusal returns value 0 and changes nothing"; W2
/// amends the value of three.
///
/// 15 and 16 cannot arise here: the output buffer is 2,052 bytes and the state
/// only ever grows from power-up.
#[derive(Clone, Copy, Debug, PartialEq, Eq)]
pub enum Refusal {
    /// Offset above 15, or a word at an odd offset.
    BadOffset,
    /// Register not modelled.
    NotModelled,
    /// Write in which every byte is read-only.
    ReadOnly,
    /// Reserved MMU command value.
    ReservedCommand,
    /// Packet number not allocated.
    NotAllocated,
    /// Packet still in RX or TX FIFO.
    StillQueued,
    /// RX FIFO empty.
    RxEmpty,
    /// Data access against the pointer's READ bit.
    AgainstReadBit,
    /// Odd pointer with AUTO INCR clear.
    OddPointer,
    /// Data access past the packet's pages.
    PastPages,
    /// Event outside its limits.
    OutsideLimits,
    /// TXENA clear, or TX FIFO empty.
    NothingToSend,
    /// Byte count in the packet odd.
    OddCount(u16),
    /// Completion FIFO full.
    CompletionFull,
    /// Record cut short or of unknown kind (program only).
    BadRecord,
    /// Byte count in the packet under 12.
    ShortCount(u16),
    /// Byte count in the packet past its pages.
    LongCount(u16),
}

impl Refusal {
    /// The papers' number.
    pub fn number(self) -> u8 {
        match self {
            Self::BadOffset => 1,
            Self::NotModelled => 2,
            Self::ReadOnly => 3,
            Self::ReservedCommand => 4,
            Self::NotAllocated => 5,
            Self::StillQueued => 6,
            Self::RxEmpty => 7,
            Self::AgainstReadBit => 8,
            Self::OddPointer => 9,
            Self::PastPages => 10,
            Self::OutsideLimits => 11,
            Self::NothingToSend => 12,
            Self::OddCount(_) => 13,
            Self::CompletionFull => 14,
            Self::BadRecord => 17,
            Self::ShortCount(_) => 18,
            Self::LongCount(_) => 19,
        }
    }

    /// "the offending count as the answer's value in all three", else 0.
    pub fn value(self) -> u16 {
        match self {
            Self::OddCount(count) | Self::ShortCount(count) | Self::LongCount(count) => count,
            _ => 0,
        }
    }
}
