//! Request W10: what a stream shows of private bytes, and the sends that go by
//! one. Without these, frames with other contents alter the value of data reads
//! and the bytes put out, and nothing else.

use crate::bench::{BenchOn, Record};
use crate::chip::ChipOn;
use crate::memory::{Layout, PacketAddress, Private};
use crate::reads::Bytes;
use crate::send::SendEnd;

impl<L: Layout> ChipOn<L> {
    /// What a send that comes to its count goes by: "the TX head's bytes 2 to
    /// 9", which are count and destination, "and its control byte .. where the
    /// count is usable".
    fn decided_by(&self, record: &Record) -> Option<Bytes> {
        let [7, outcome, collisions, deferral, ..] = *record else {
            return None;
        };
        SendEnd::new(outcome, collisions, deferral).ok()?;
        let packet = self.head_to_send().ok()?;
        let usable = self.count_faults(packet).next().is_none();
        let control = usable.then(|| self.byte_count(packet) - 1);
        Some(Bytes {
            packet,
            addresses: (2..=9).chain(control).map(PacketAddress).collect(),
        })
    }
}

impl<L: Layout> BenchOn<Private<L>> {
    /// The private bytes by which a send goes, if there is one.
    pub fn uncovered(&self, record: &Record) -> Option<Bytes> {
        let bytes = self.private_of(self.chip.decided_by(record)?);
        (!bytes.addresses.is_empty()).then_some(bytes)
    }

    fn private_of(&self, mut bytes: Bytes) -> Bytes {
        let packets = &self.chip.packets;
        bytes
            .addresses
            .retain(|&address| packets.is_private(bytes.packet, address));
        bytes
    }

    /// What a record will show, if it is done.
    fn shows(&self, record: &Record) -> Shown {
        let Some(bytes) = self.reads(record) else {
            return Shown::Other;
        };
        if record[0] != 7 {
            let private = self.private_of(bytes).addresses.len();
            return Shown::Read { private };
        }
        // without the count and the control byte
        let [_, _, data @ .., _] = &bytes.addresses[..] else {
            return Shown::Other; // the count alone: it will be refused
        };
        let data = Bytes {
            packet: bytes.packet,
            addresses: data.to_vec(),
        };
        let length = data.addresses.len();
        let private = self.private_of(data).addresses.len();
        Shown::Sent { private, length }
    }
}

/// What a record has shown of packets' bytes, and how many of them are private.
#[derive(Clone, Copy, Debug, PartialEq, Eq)]
pub enum Shown {
    /// The value of a data read that was done.
    Read { private: usize },
    /// The data of a send that was done, of so many bytes.
    Sent { private: usize, length: usize },
    /// None.
    Other,
}

impl Shown {
    /// As it stands in the notes.
    pub fn line(self) -> String {
        match self {
            Self::Read { private } => format!("read {private}\n"),
            Self::Sent { private, length } => format!("send {private} {length}\n"),
            Self::Other => "other\n".to_string(),
        }
    }
}

/// A send that goes by private bytes.
#[derive(Clone, Debug, PartialEq, Eq)]
pub struct Uncovered {
    /// Its record, from 1.
    pub number: u64,
    pub bytes: Bytes,
}

impl Uncovered {
    /// Which bytes they are, in words.
    pub fn line(&self) -> String {
        let named = |&PacketAddress(at): &PacketAddress| match at {
            2 | 3 => format!("{at} (byte count)"),
            4..=9 => format!("{at} (destination)"),
            _ => format!("{at} (control byte)"),
        };
        let places: Vec<_> = self.bytes.addresses.iter().map(named).collect();
        let (number, packet) = (self.number, self.bytes.packet.get());
        let places = places.join(", ");
        format!("record {number}: the send of packet {packet} goes by private bytes: {places}\n")
    }
}

/// What becomes of a send that goes by private bytes.
#[derive(Clone, Copy, Debug, PartialEq, Eq)]
pub enum Treatment {
    Play,
    LeaveOut,
}

/// A run from power-up.
#[derive(Clone, Debug, Default)]
pub struct Run {
    /// The records that were played.
    pub records: Vec<Record>,
    /// What each of them has shown.
    pub shown: Vec<Shown>,
    pub uncovered: Vec<Uncovered>,
}

/// Plays a stream's records, each as the ones before it leave the bench.
pub fn run<L: Layout>(records: &[Record], treatment: Treatment) -> Run {
    let mut bench = BenchOn::<Private<L>>::default();
    let mut run = Run::default();
    for (number, record) in (1..).zip(records) {
        if let Some(bytes) = bench.uncovered(record) {
            run.uncovered.push(Uncovered { number, bytes });
            if treatment == Treatment::LeaveOut {
                continue;
            }
        }
        run.records.push(*record);
        run.shown.push(bench.shows(record));
        let _ = bench.step(record); // the answer is the bench's to print
    }
    run
}
