//! `eventtext < text > events` turns readable text to an event file, and
//! `eventtext --back < events > text` turns an event file to text.
//! `eventtext --either` takes text or an event file and writes an event file;
//! `eventtext --text` takes text alone. These two are for what is to be run:
//! events that are too many for an event file are a wrong line, and an input that
//! looks like something else is told by a hint.

use events::back::to_text;
use events::hint::hint;
use events::program::{ended, unwritten, Stop};
use events::text::{is_text, to_bytes, to_file, WrongLine};
use std::io::{self, Read, Write};
use std::process::ExitCode;

fn main() -> ExitCode {
    ended(run)
}

/// Nothing is written before all of the input has been found right.
fn run(arguments: &[String]) -> Result<(), Stop> {
    let words: Vec<&str> = arguments.iter().map(String::as_str).collect();
    let turn: fn(Vec<u8>) -> Result<Vec<u8>, WrongLine> = match words[..] {
        [] => |text| to_bytes(&text),
        ["--text"] => |text| to_file(&text),
        ["--either"] => either,
        ["--back"] => |events| Ok(to_text(&events).into_bytes()),
        _ => return Err(String::from("usage: eventtext [--text | --either | --back]").into()),
    };
    let input = read().map_err(|error| format!("eventtext: {}", error))?;
    if let ["--text" | "--either"] = words[..] {
        hint(&input).iter().for_each(|hint| eprintln!("{}", hint));
    }
    let output = turn(input).map_err(|wrong| wrong.to_string())?;
    write(&output).map_err(unwritten("eventtext"))
}

fn either(input: Vec<u8>) -> Result<Vec<u8>, WrongLine> {
    if is_text(&input) {
        to_file(&input)
    } else {
        Ok(input)
    }
}

fn read() -> io::Result<Vec<u8>> {
    let mut input = Vec::new();
    io::stdin().read_to_end(&mut input)?;
    Ok(input)
}

fn write(output: &[u8]) -> io::Result<()> {
    let mut out = io::stdout();
    out.write_all(output)?;
    out.flush()
}
