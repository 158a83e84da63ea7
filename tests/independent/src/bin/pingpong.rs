//! `pingpong BENCH COUNT < records`: hands a bench one record at a time, waits
//! for its line each time, and prints the seconds that all took.

use std::io::{self, BufRead, BufReader, Read, Write};
use std::process::{Command, ExitCode, Stdio};
use std::time::{Duration, Instant};

use independent::bench::RECORD_SIZE;

fn round_trips(program: &str, records: &[u8]) -> io::Result<Duration> {
    let mut child = Command::new(program)
        .stdin(Stdio::piped())
        .stdout(Stdio::piped())
        .spawn()?;
    let (Some(mut input), Some(output)) = (child.stdin.take(), child.stdout.take()) else {
        return Err(io::Error::other("the pipes are missing"));
    };
    let mut output = BufReader::new(output);
    let mut line = Vec::new();
    let start = Instant::now();
    for record in records.chunks_exact(RECORD_SIZE) {
        input.write_all(record)?;
        line.clear();
        if output.read_until(b'\n', &mut line)? == 0 {
            return Err(io::Error::other("the bench ended early"));
        }
    }
    let taken = start.elapsed();
    drop(input);
    child.wait()?;
    Ok(taken)
}

fn run(program: &str, count: usize) -> io::Result<()> {
    let mut records = vec![0; count * RECORD_SIZE];
    io::stdin().lock().read_exact(&mut records)?;
    println!("{:.6}", round_trips(program, &records)?.as_secs_f64());
    Ok(())
}

fn main() -> ExitCode {
    let arguments: Vec<String> = std::env::args().skip(1).collect();
    let order = match &arguments[..] {
        [program, count] => count.parse().ok().map(|count| (program, count)),
        _ => None,
    };
    let Some((program, count)) = order else {
        eprintln!("usage: pingpong BENCH COUNT < records");
        return ExitCode::from(2);
    };
    match run(program, count) {
        Ok(()) => ExitCode::SUCCESS,
        Err(error) => {
            eprintln!("pingpong: {error}");
            ExitCode::FAILURE
        }
    }
}
