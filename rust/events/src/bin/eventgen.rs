//! `eventgen SEED KIND` writes the event file of a seed; `eventgen --kinds`
//! names the kinds, one a line, without the long files.

use events::kinds::{generate, Kind, KINDS};
use events::long::{long, LONG};
use std::io::{self, Write};
use std::process::ExitCode;

fn main() -> ExitCode {
    let arguments: Vec<String> = std::env::args_os()
        .skip(1)
        .map(|argument| argument.to_string_lossy().into_owned())
        .collect();
    match file(&arguments).and_then(|bytes| write(&bytes)) {
        Ok(()) => ExitCode::SUCCESS,
        Err(what) => {
            eprintln!("eventgen: {}", what);
            ExitCode::FAILURE
        }
    }
}

fn file(arguments: &[String]) -> Result<Vec<u8>, String> {
    let (seed, name) = match arguments {
        [flag] if flag == "--kinds" => return Ok(kinds().into_bytes()),
        [seed, name] => (parse_seed(seed)?, name),
        _ => {
            return Err(format!(
                "usage: eventgen SEED KIND, or eventgen --kinds\n{}",
                known_kinds()
            ))
        }
    };
    let bytes = match Kind::named(name) {
        Some(kind) => Some(generate(seed, kind)),
        None => long(name, seed),
    };
    bytes.ok_or_else(|| format!("unknown kind \"{}\"\n{}", name, known_kinds()))
}

fn parse_seed(word: &str) -> Result<u64, String> {
    let digits = word.bytes().all(|c| c.is_ascii_digit());
    match word.parse() {
        Ok(seed) if digits => Ok(seed),
        _ => Err(format!(
            "the seed \"{}\" is not a number from 0 to {}\n{}",
            word,
            u64::MAX,
            known_kinds()
        )),
    }
}

fn kinds() -> String {
    KINDS
        .iter()
        .map(|(name, _)| format!("{}\n", name))
        .collect()
}

fn known_kinds() -> String {
    let long: Vec<&str> = LONG.iter().map(|(name, _)| *name).collect();
    format!(
        "KIND is one of: {}; to measure with: {}",
        Kind::names(),
        long.join(", ")
    )
}

fn write(bytes: &[u8]) -> Result<(), String> {
    let mut out = io::stdout();
    out.write_all(bytes)
        .and_then(|()| out.flush())
        .map_err(|error| error.to_string())
}
