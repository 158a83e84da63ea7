//! Request W9: two parts, which differ in how many packets and pages they have.

/// The part on the bench.
#[derive(Clone, Copy, Debug, Default, PartialEq, Eq)]
pub enum Part {
    Lan91c94,
    /// Document 01's, and the one that is not asked for.
    #[default]
    Lan91c96,
}

impl Part {
    /// "byte 1 being 94h or 96h".
    pub fn named(byte: u8) -> Option<Self> {
        match byte {
            0x94 => Some(Self::Lan91c94),
            0x96 => Some(Self::Lan91c96),
            _ => None,
        }
    }

    /// The byte that asks for it.
    pub fn byte(self) -> u8 {
        match self {
            Self::Lan91c94 => 0x94,
            Self::Lan91c96 => 0x96,
        }
    }

    pub fn name(self) -> &'static str {
        match self {
            Self::Lan91c94 => "LAN91C94",
            Self::Lan91c96 => "LAN91C96",
        }
    }

    /// "18 pages", or document 01's 24.
    pub fn pages(self) -> usize {
        match self {
            Self::Lan91c94 => 18,
            Self::Lan91c96 => 24,
        }
    }

    /// "packets 0 to 17", or 0 to 23: as many as pages, and as many as "the
    /// completion FIFO holds".
    pub fn packets(self) -> usize {
        self.pages()
    }
}
