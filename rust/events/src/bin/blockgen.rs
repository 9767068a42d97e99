//! `blockgen SEED KIND [COUNT]` writes the block cases of a seed, as lines for
//! `blocksecond`; `blockgen --kinds` names the kinds, one a line.

use events::blockkinds::{write_cases, BlockKind, BLOCK_KINDS, CASES};
use events::program::{ended, unwritten, Stop};
use std::io::{self, BufWriter, Write};
use std::process::ExitCode;

fn main() -> ExitCode {
    ended(run)
}

fn run(arguments: &[String]) -> Result<(), Stop> {
    let words: Vec<&str> = arguments.iter().map(String::as_str).collect();
    let (seed, name, count) = match words[..] {
        ["--kinds"] => return write_kinds().map_err(unwritten("blockgen")),
        [seed, name] => (number("seed", seed)?, name, CASES as u64),
        [seed, name, count] => (number("seed", seed)?, name, number("count", count)?),
        _ => {
            let usage = "usage: blockgen SEED KIND [COUNT], or blockgen --kinds";
            return Err(told(usage));
        }
    };
    match BlockKind::named(name) {
        Some(kind) => write(seed, kind, count as usize).map_err(unwritten("blockgen")),
        None => Err(told(&format!("unknown kind \"{}\"", name))),
    }
}

fn told(what: &str) -> Stop {
    Stop::Wrong(format!(
        "blockgen: {}\nKIND is one of: {}",
        what,
        BlockKind::names()
    ))
}

fn number(field: &str, word: &str) -> Result<u64, Stop> {
    let digits = word.bytes().all(|c| c.is_ascii_digit());
    match word.parse() {
        Ok(number) if digits => Ok(number),
        _ => Err(told(&format!(
            "the {} \"{}\" is not a number from 0 to {}",
            field,
            word,
            u64::MAX
        ))),
    }
}

fn write_kinds() -> io::Result<()> {
    let mut out = io::stdout();
    for (name, _) in BLOCK_KINDS {
        writeln!(out, "{}", name)?;
    }
    out.flush()
}

fn write(seed: u64, kind: BlockKind, count: usize) -> io::Result<()> {
    let mut out = BufWriter::new(io::stdout());
    write_cases(seed, kind, count, &mut out)?;
    out.flush()
}
