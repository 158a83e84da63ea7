//! Deep streams of records, steered by a bench of the generator's own so that
//! packets fill, queues back up and counters stop before anything is reset.

mod checks;
mod counts;
mod driver;
mod link;
mod part;
mod probe;
mod receive;
mod setup;
mod transmit;
mod waiting;
mod written;

use crate::bench::{BenchOn, Record, RECORD_SIZE};
use crate::chip::ChipOn;
use crate::memory::{Marked, Paged};
use crate::part::Part;
use crate::random::Random;
pub use written::Reading;

/// Exactly `count` records, the same for the same seed.
pub fn records(seed: u64, count: usize) -> Vec<Record> {
    records_reading(Reading::Free, seed, count)
}

/// The same, of records that may read only these bytes.
pub fn records_reading(reading: Reading, seed: u64, count: usize) -> Vec<Record> {
    stream(None, reading, seed, count)
}

/// The same; the first record asks for the part, if one is given.
pub fn stream(part: Option<Part>, reading: Reading, seed: u64, count: usize) -> Vec<Record> {
    let mut generator = Generator::new(reading, seed, count);
    if let Some(part) = part {
        generator.start(part);
    }
    generator.configure_all();
    while generator.records.len() < count {
        generator.play_scene();
    }
    generator.records
}

/// A record without its last byte. Its kind is one that is answered, so that a
/// program which serves it prints another line than 17's.
pub fn tail(seed: u64) -> [u8; RECORD_SIZE - 1] {
    let mut random = Random::new(!seed);
    let mut bytes = [0; RECORD_SIZE - 1];
    bytes.fill_with(|| random.byte());
    bytes[0] = random.between(1, 9) as u8;
    bytes
}

/// A scene and its share; costs differ, so shares are not shares of records.
type Scene = (usize, fn(&mut Generator));

const SCENES: &[Scene] = &[
    (40, Generator::transmit),
    (14, Generator::send_again),
    (24, Generator::rewrite_counts),
    (3, Generator::inherit_count),
    (30, Generator::short_frame),
    (4, Generator::middling_frame),
    (3, Generator::long_frame),
    (8, Generator::judged_frames),
    (9, Generator::send_near_padding),
    (6, Generator::hear_echo),
    (22, Generator::drain),
    (16, Generator::configure_some),
    (38, Generator::walk_pointer),
    (8, Generator::cross_border),
    (4, Generator::wrap_pointer),
    (14, Generator::shuffle_packets),
    (32, Generator::wait_for_pages),
    (24, Generator::move_cable),
    (14, Generator::tidy),
    (14, Generator::poke_registers),
    (12, Generator::sweep_bank),
    (10, Generator::trouble_queues),
    (12, Generator::odd_command),
    (12, Generator::odd_record),
    (8, Generator::raw_records),
    (12, Generator::acknowledge),
    (3, Generator::fill_completion),
    (3, Generator::stop_counters),
    (1, Generator::fill_rx),
    (4, Generator::use_up_numbers),
    (1, Generator::read_whole_page),
];

/// What streams have in addition that read only what was written.
const WRITTEN_SCENES: &[Scene] = &[
    (3, Generator::look_at_written),
    (2, Generator::read_back),
    (2, Generator::write_beside),
    (3, Generator::forward_frame),
    (2, Generator::send_and_release),
];
const WRITTEN: usize = 8;

/// Scenes so costly or so shallow that they come once in many others.
const RARE_SCENES: &[Scene] = &[
    (12, Generator::soft_reset),
    (16, Generator::free_all),
    (16, Generator::empty_tx),
    (8, Generator::gather_too_much),
    (1, Generator::read_whole_memory),
];
const RARE: usize = 40;

pub struct Generator {
    random: Random,
    bench: BenchOn<Marked<Paged>>,
    reading: Reading,
    records: Vec<Record>,
    wanted: usize,
    last_put_out: Vec<u8>,
}

impl Generator {
    fn new(reading: Reading, seed: u64, wanted: usize) -> Self {
        Self {
            random: Random::new(seed),
            bench: BenchOn::default(),
            reading,
            records: Vec::with_capacity(wanted),
            wanted,
            last_put_out: Vec::new(),
        }
    }

    fn play_scene(&mut self) {
        let scenes = self.choose_scenes();
        let scene = self.choose(scenes);
        scene(self);
        if self.random.one_in(2) {
            self.look_around();
        }
        if self.random.one_in(2) {
            self.set_mask(); // another bit of the status decides the line
        }
    }

    fn choose_scenes(&mut self) -> &'static [Scene] {
        if self.random.one_in(RARE) {
            return RARE_SCENES;
        }
        match self.reading {
            Reading::Free => SCENES,
            _ if self.random.one_in(WRITTEN) => WRITTEN_SCENES,
            _ => SCENES,
        }
    }

    fn choose(&mut self, scenes: &[Scene]) -> fn(&mut Self) {
        let total: usize = scenes.iter().map(|(share, _)| share).sum();
        let mut left = self.random.between(1, total);
        for &(share, scene) in scenes {
            if left <= share {
                return scene;
            }
            left -= share;
        }
        unreachable!("the shares sum to the total")
    }

    fn chip(&self) -> &ChipOn<Marked<Paged>> {
        &self.bench.chip
    }

    /// Plays a record on the own bench and keeps it while more are wanted,
    /// unless it reads what it must not.
    fn emit(&mut self, record: Record) {
        if !self.make_readable(&record) {
            return;
        }
        if self.records.len() < self.wanted {
            self.records.push(record);
        }
        let answer = self.bench.step(&record);
        if let Some(bytes) = self.bench.put_out(record[0], answer) {
            self.last_put_out = bytes.to_vec();
        }
    }

    /// Emits a record from its leading bytes. "Unused bytes are ignored", so
    /// some hold noise.
    fn say(&mut self, bytes: &[u8]) {
        let mut record = Record::default();
        if self.random.one_in(4) {
            record.fill_with(|| self.random.byte());
        }
        record[..bytes.len()].copy_from_slice(bytes);
        self.emit(record);
    }
}
