//! `eventpage NAME EVENTS LISTING INPUT OUT` writes the page of a run to the file
//! OUT: of an event file and its proved listing, with the comments of the input
//! that the events come from, if that is a text. OUT is written whole or not at
//! all. The exit status is 1 where the second program would have written another
//! line; the page says so, and is written all the same.

use events::program::{ended, Stop};
use events::text::is_text;
use page::html::page;
use page::steps::Run;
use page::whole;
use std::fs;
use std::io;
use std::path::Path;
use std::process::ExitCode;

fn main() -> ExitCode {
    ended(run)
}

fn run(arguments: &[String]) -> Result<(), Stop> {
    let (name, events, listing, input, out) = match arguments {
        [name, events, listing, input, out] => {
            (name, read(events)?, read(listing)?, read(input)?, out)
        }
        _ => return Err(String::from("usage: eventpage NAME EVENTS LISTING INPUT OUT").into()),
    };
    let text = Some(&input[..]).filter(|input| is_text(input));
    let run = Run::of(&events, &listing, text);
    whole::write(Path::new(out), &page(name, &run)).map_err(|error| told(out, error))?;
    match run.different() {
        0 => Ok(()),
        different => Err(Stop::Wrong(format!(
            "the second program differs from the proved listing in {} line(s), in red on the page",
            different
        ))),
    }
}

fn read(name: &str) -> Result<Vec<u8>, String> {
    fs::read(name).map_err(|error| told(name, error))
}

fn told(name: &str, error: io::Error) -> String {
    format!("eventpage: {}: {}", name, error)
}
