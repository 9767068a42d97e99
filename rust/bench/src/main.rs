//! `yardsticks WHICH LETTER HELD N` does the work of the proved program `rounds`
//! (r: rounds, s: scans) on `inplace` or `waiters`, and prints the same numbers.

mod inplace;
mod tenants;
mod waiters;
mod work;

use std::process::ExitCode;
use work::{holding, rounds, scans, shown, Locks};

const USAGE: &str = "usage: yardsticks inplace r|s HELD N, or yardsticks waiters r HELD N; \
                     HELD is at most 63, N at most 65535";

fn main() -> ExitCode {
    let arguments: Vec<String> = std::env::args().skip(1).collect();
    match worked(&arguments) {
        Some(told) => {
            println!("{}", told);
            ExitCode::SUCCESS
        }
        None => {
            eprintln!("{}", USAGE);
            ExitCode::FAILURE
        }
    }
}

fn worked(arguments: &[String]) -> Option<String> {
    let [which, letter, held, n] = <&[String; 4]>::try_from(arguments).ok()?;
    let held: u8 = held.parse().ok().filter(|&held| held <= 63)?;
    let n: u16 = n.parse().ok()?;
    match (which.as_str(), letter.as_str()) {
        ("inplace", "r") => Some(after_rounds::<inplace::Table>(held, n)),
        ("waiters", "r") => Some(after_rounds::<waiters::Table>(held, n)),
        ("inplace", "s") => {
            let mut table = holding(held);
            scans(&mut table, n);
            Some(shown(&table))
        }
        _ => None,
    }
}

fn after_rounds<T: Locks>(held: u8, n: u16) -> String {
    let mut table: T = holding(held);
    rounds(&mut table, n);
    shown(&table)
}
