//! `generate SEED COUNT [--part 94|96] [--written] [--tail] > file`: exactly COUNT
//! records, the same for the same seed and options. With `--part` the first of
//! them asks for the part; without, none asks for one in time. With `--written` no
//! send and no data read reads a byte that was not written since its packet's
//! grant, so that the strip chip of request W3 answers like the paged one. With
//! `--tail` there is one after them that lacks its last byte.

use std::io::{self, Write};
use std::process::ExitCode;

use independent::generator::{self, Reading};
use independent::part::Part;

struct Order {
    seed: u64,
    count: usize,
    part: Option<Part>,
    reading: Reading,
    tail: bool,
}

/// Options in any order, none of them twice.
fn parse(arguments: &[String]) -> Option<Order> {
    let [seed, count, options @ ..] = arguments else {
        return None;
    };
    let mut order = Order {
        seed: seed.parse().ok()?,
        count: count.parse().ok()?,
        part: None,
        reading: Reading::Free,
        tail: false,
    };
    let mut options = options.iter().map(String::as_str);
    while let Some(option) = options.next() {
        match option {
            "--part" if order.part.is_none() => order.part = Some(part(options.next()?)?),
            "--written" if order.reading == Reading::Free => order.reading = Reading::Written,
            "--tail" if !order.tail => order.tail = true,
            _ => return None,
        }
    }
    Some(order)
}

/// The part by its last two digits.
fn part(digits: &str) -> Option<Part> {
    match digits {
        "94" => Some(Part::Lan91c94),
        "96" => Some(Part::Lan91c96),
        _ => None,
    }
}

fn write(order: &Order) -> io::Result<()> {
    let mut output = io::stdout().lock();
    let records = generator::stream(order.part, order.reading, order.seed, order.count);
    output.write_all(records.as_flattened())?;
    if order.tail {
        output.write_all(&generator::tail(order.seed))?;
    }
    output.flush()
}

fn main() -> ExitCode {
    let arguments: Vec<String> = std::env::args().skip(1).collect();
    let Some(order) = parse(&arguments) else {
        eprintln!("usage: generate SEED COUNT [--part 94|96] [--written] [--tail] > file");
        return ExitCode::from(2);
    };
    match write(&order) {
        Ok(()) => ExitCode::SUCCESS,
        Err(error) => {
            eprintln!("generate: {error}");
            ExitCode::FAILURE
        }
    }
}
