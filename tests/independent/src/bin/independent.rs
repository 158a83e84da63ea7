//! `independent [--strips] [--watch] < records`: the bench, a line for each
//! record; with `--watch` the lines of the program "watch", with `--strips` from
//! the chip of request W3.

use std::ffi::OsString;
use std::io::{self, Read, Write};
use std::process::ExitCode;

use independent::bench::{self, Answer, BenchOn, Record, RECORD_SIZE};
use independent::memory::{Layout, Paged, Strips};
use independent::refusal::Refusal;
use independent::watch;

/// Records taken in one read when the input has that many.
const BATCH: usize = 8_192;

/// Which of the options are given.
#[derive(Clone, Copy, Default)]
struct Options {
    strips: bool,
    watch: bool,
}

impl Options {
    /// In any order, none of them twice.
    fn parse(arguments: impl Iterator<Item = OsString>) -> Option<Self> {
        let mut options = Self::default();
        for argument in arguments {
            let option = match argument.to_str()? {
                "--strips" => &mut options.strips,
                "--watch" => &mut options.watch,
                _ => return None,
            };
            if std::mem::replace(option, true) {
                return None;
            }
        }
        Some(options)
    }
}

fn main() -> ExitCode {
    let Some(options) = Options::parse(std::env::args_os().skip(1)) else {
        eprintln!("usage: independent [--strips] [--watch] < records");
        return ExitCode::from(2);
    };
    let ended = match options.strips {
        true => run_on::<Strips>(options.watch),
        false => run_on::<Paged>(options.watch),
    };
    match ended {
        Ok(()) => ExitCode::SUCCESS,
        Err(error) => {
            eprintln!("independent: {error}");
            ExitCode::FAILURE
        }
    }
}

/// Runs the chip of a layout on the standard input.
fn run_on<L: Layout>(watch: bool) -> io::Result<()> {
    let (input, output) = (io::stdin().lock(), io::stdout().lock());
    match watch {
        true => run::<L>(input, output, watch::push_line),
        false => run::<L>(input, output, push_bench_line),
    }
}

fn push_bench_line<L>(lines: &mut Vec<u8>, number: u64, _: u8, answer: Answer, _: &BenchOn<L>) {
    bench::push_line(lines, number, answer);
}

/// Answers every whole record at hand, then reads again: so each is answered
/// before the program blocks, and a file is still taken in large pieces.
/// `push` appends a record's line: number, kind, answer, the bench after it.
fn run<L: Layout>(
    mut input: impl Read,
    mut output: impl Write,
    push: impl Fn(&mut Vec<u8>, u64, u8, Answer, &BenchOn<L>),
) -> io::Result<()> {
    let mut bench = BenchOn::<L>::default();
    let mut records: u64 = 0;
    let mut buffer = vec![0; BATCH * RECORD_SIZE];
    let mut held = 0;
    let mut lines = Vec::new();

    loop {
        let read = read_some(&mut input, &mut buffer[held..])?;
        if read == 0 {
            break;
        }
        held += read;
        let whole = held - held % RECORD_SIZE;
        for record in buffer[..whole].chunks_exact(RECORD_SIZE) {
            let record: &Record = record.try_into().expect("chunks of a record's size");
            records += 1;
            let answer = bench.step(record);
            push(&mut lines, records, record[0], answer, &bench);
        }
        output.write_all(&lines)?;
        output.flush()?;
        lines.clear();
        buffer.copy_within(whole..held, 0);
        held -= whole;
    }

    // "record cut short": a tail of 1 to 7 bytes is one line.
    if held > 0 {
        let answer = Err(Refusal::BadRecord);
        push(&mut lines, records + 1, buffer[0], answer, &bench);
        output.write_all(&lines)?;
    }
    output.flush()
}

fn read_some(input: &mut impl Read, buffer: &mut [u8]) -> io::Result<usize> {
    loop {
        match input.read(buffer) {
            Err(error) if error.kind() == io::ErrorKind::Interrupted => {}
            result => return result,
        }
    }
}
