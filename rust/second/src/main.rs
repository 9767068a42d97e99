//! `second < events` prints the listing of an event file.

use second::reader::MOST_BYTES;
use std::io::{self, Read, Write};
use std::process::ExitCode;

fn main() -> ExitCode {
    match run() {
        Ok(()) => ExitCode::SUCCESS,
        Err(error) => {
            eprintln!("second: {}", error);
            ExitCode::FAILURE
        }
    }
}

/// Only a failing input or output is an error: any bytes whatever have a
/// listing.
fn run() -> io::Result<()> {
    let mut file = Vec::new();
    // One byte above the limit is enough to know refusal 24.
    io::stdin()
        .take(MOST_BYTES as u64 + 1)
        .read_to_end(&mut file)?;
    let mut out = io::stdout();
    out.write_all(second::listing(&file).as_bytes())?;
    out.flush()
}
