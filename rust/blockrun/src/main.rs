//! `blockrun [FILE]` runs the lines of `blocklines` on a block, by the calls
//! that a host links. Exit status 1 for a wrong line, and where the second
//! program reads a block otherwise than the linked check does.

mod explain;
mod linked;

use events::blocklines::program;
use events::program::{ended, Stop};
use linked::Linked;
use std::process::ExitCode;

fn main() -> ExitCode {
    ended(run)
}

fn run(arguments: &[String]) -> Result<(), Stop> {
    let mut machine = Linked::default();
    program("blockrun", arguments, &mut machine)?;
    match machine.different() {
        0 => Ok(()),
        different => Err(Stop::Wrong(format!(
            "the second program differs from the linked check in {} explanation(s), \
             marked DIFFERENT",
            different
        ))),
    }
}
