//! `eventshow EVENTS LISTING` prints a proved listing with the state after
//! each call below its line. The exit status is 1 where the second program
//! would have written another line.

use events::program::{ended, unwritten, Stop};
use events::show::show;
use std::fs;
use std::io::{self, BufWriter, Write};
use std::process::ExitCode;

fn main() -> ExitCode {
    ended(run)
}

fn run(arguments: &[String]) -> Result<(), Stop> {
    let (events, listing) = match arguments {
        [events, listing] => (read(events)?, read(listing)?),
        _ => return Err(String::from("usage: eventshow EVENTS LISTING").into()),
    };
    match write(&events, &listing).map_err(unwritten("eventshow"))? {
        0 => Ok(()),
        different => Err(Stop::Wrong(format!(
            "the second program differs from the proved listing in {} line(s), marked DIFFERENT",
            different
        ))),
    }
}

fn read(name: &str) -> Result<Vec<u8>, String> {
    fs::read(name).map_err(|error| format!("eventshow: {}: {}", name, error))
}

fn write(events: &[u8], listing: &[u8]) -> io::Result<usize> {
    let mut out = BufWriter::new(io::stdout());
    let different = show(events, listing, &mut out)?;
    out.flush()?;
    Ok(different)
}
