//! `told < file`: all that can be seen of a bench that runs a file's records.

use std::io::{self, Read};

use independent::bench::RECORD_SIZE;
use independent::told;

fn main() -> io::Result<()> {
    let mut bytes = Vec::new();
    io::stdin().lock().read_to_end(&mut bytes)?;
    let (records, _) = bytes.as_chunks::<RECORD_SIZE>();
    print!("{}", told::tell(records));
    Ok(())
}
