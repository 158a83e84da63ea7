//! `covered [--strips] [--notes FILE] < records > records`: the stream without the
//! sends that go by private bytes (request W10): those that come to their count
//! with a private byte among bytes 2 to 9 of the packet or, where the count is
//! usable, as its control byte. What is left out is not played, and all else is
//! copied. The notes have a line for each record written: `read P`, a data read
//! that is done, of which P bytes are private; `send P N`, a send that is done, of
//! which P bytes of N are private; or `other`.
//!
//! `covered [--strips] --report < records`: no stream, but a line for each such
//! send of the stream as it is, and status 1 where there is one.
//!
//! With `--strips` the packets lie as on the chip of request W3.

use std::io::{self, Read, Write};
use std::process::ExitCode;

use independent::bench::RECORD_SIZE;
use independent::memory::{Paged, Strips};
use independent::private::{self, Run, Shown, Treatment};

#[derive(Default)]
struct Order {
    strips: bool,
    report: bool,
    notes: Option<String>,
}

/// Options in any order, none of them twice; notes are of a stream.
fn parse(arguments: &[String]) -> Option<Order> {
    let mut order = Order::default();
    let mut arguments = arguments.iter().map(String::as_str);
    while let Some(argument) = arguments.next() {
        match argument {
            "--strips" if !order.strips => order.strips = true,
            "--report" if !order.report => order.report = true,
            "--notes" if order.notes.is_none() => order.notes = Some(arguments.next()?.into()),
            _ => return None,
        }
    }
    (!order.report || order.notes.is_none()).then_some(order)
}

/// A cut tail is answered like any record.
fn write(run: &Run, tail: &[u8], notes: Option<&str>) -> io::Result<()> {
    let mut output = io::stdout().lock();
    output.write_all(run.records.as_flattened())?;
    output.write_all(tail)?;
    output.flush()?;
    let Some(file) = notes else {
        return Ok(());
    };
    let of_tail = (!tail.is_empty()).then_some(Shown::Other);
    let lines = run.shown.iter().copied().chain(of_tail).map(Shown::line);
    std::fs::write(file, lines.collect::<String>())
}

fn report(run: &Run) -> io::Result<ExitCode> {
    let lines: String = run.uncovered.iter().map(|send| send.line()).collect();
    io::stdout().lock().write_all(lines.as_bytes())?;
    Ok(match run.uncovered.is_empty() {
        true => ExitCode::SUCCESS,
        false => ExitCode::FAILURE,
    })
}

fn obey(order: &Order) -> io::Result<ExitCode> {
    let mut bytes = Vec::new();
    io::stdin().lock().read_to_end(&mut bytes)?;
    let (records, tail) = bytes.as_chunks::<RECORD_SIZE>();
    let treatment = match order.report {
        true => Treatment::Play,
        false => Treatment::LeaveOut,
    };
    let run = match order.strips {
        true => private::run::<Strips>(records, treatment),
        false => private::run::<Paged>(records, treatment),
    };
    if order.report {
        return report(&run);
    }
    write(&run, tail, order.notes.as_deref())?;
    Ok(ExitCode::SUCCESS)
}

fn main() -> ExitCode {
    let arguments: Vec<String> = std::env::args().skip(1).collect();
    let Some(order) = parse(&arguments) else {
        eprintln!("usage: covered [--strips] [--report | --notes FILE] < records");
        return ExitCode::from(2);
    };
    obey(&order).unwrap_or_else(|error| {
        eprintln!("covered: {error}");
        ExitCode::FAILURE
    })
}
