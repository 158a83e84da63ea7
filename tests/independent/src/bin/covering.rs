//! `covering FOLDER`: writes each covering stream to a file of its name.

use std::io;
use std::path::Path;
use std::process::ExitCode;

use independent::covering;

fn write(folder: &Path) -> io::Result<()> {
    for (name, records) in covering::streams() {
        std::fs::write(folder.join(name), records.as_flattened())?;
    }
    Ok(())
}

fn main() -> ExitCode {
    let arguments: Vec<String> = std::env::args().skip(1).collect();
    let [folder] = &arguments[..] else {
        eprintln!("usage: covering FOLDER");
        return ExitCode::from(2);
    };
    match write(Path::new(folder)) {
        Ok(()) => ExitCode::SUCCESS,
        Err(error) => {
            eprintln!("covering: {error}");
            ExitCode::FAILURE
        }
    }
}
