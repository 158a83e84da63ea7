//! `coverage [--cells | --counts | --missing CELLS] [FILE..]`: what the streams
//! in the files reach, each from power-up, or the one on standard input. As
//! tables; as a list of cells; as one with a count behind each; or as the cells
//! of a list that are not reached.

use std::collections::BTreeSet;
use std::io::{self, Read};
use std::process::ExitCode;

use independent::bench::RECORD_SIZE;
use independent::coverage::{single_cells, Coverage};

fn read(files: &[String]) -> io::Result<Vec<Vec<u8>>> {
    if files.is_empty() {
        let mut bytes = Vec::new();
        io::stdin().lock().read_to_end(&mut bytes)?;
        return Ok(vec![bytes]);
    }
    files.iter().map(std::fs::read).collect()
}

fn cover(files: &[String]) -> io::Result<Coverage> {
    let mut coverage = Coverage::default();
    for bytes in read(files)? {
        coverage.stream(bytes.as_chunks::<RECORD_SIZE>().0);
    }
    Ok(coverage)
}

fn single(lines: &[String]) -> BTreeSet<String> {
    single_cells(lines.iter().map(String::as_str))
}

/// Says which of the wanted cells are not reached, or how many all are.
fn report_missing(wanted: &BTreeSet<String>, reached: &BTreeSet<String>) -> ExitCode {
    let missing: Vec<_> = wanted.difference(reached).collect();
    if missing.is_empty() {
        println!("{}", wanted.len());
        return ExitCode::SUCCESS;
    }
    for cell in &missing {
        println!("not reached: {cell}");
    }
    ExitCode::FAILURE
}

fn run(arguments: &[String]) -> io::Result<ExitCode> {
    match arguments {
        [option, files @ ..] if option == "--cells" => {
            for line in cover(files)?.cells() {
                println!("{line}");
            }
        }
        [option, files @ ..] if option == "--counts" => {
            for line in cover(files)?.counts() {
                println!("{line}");
            }
        }
        [option, cells, files @ ..] if option == "--missing" => {
            let wanted = std::fs::read_to_string(cells)?;
            let reached = single(&cover(files)?.cells());
            return Ok(report_missing(&single_cells(wanted.lines()), &reached));
        }
        files => print!("{}", cover(files)?),
    }
    Ok(ExitCode::SUCCESS)
}

fn main() -> ExitCode {
    let arguments: Vec<String> = std::env::args().skip(1).collect();
    run(&arguments).unwrap_or_else(|error| {
        eprintln!("coverage: {error}");
        ExitCode::FAILURE
    })
}
