//! How a program of this crate ends: what went wrong goes to standard error,
//! with exit status 1.

use std::io;
use std::process::ExitCode;

/// The status of a program that SIGPIPE ends. Rust takes that signal as an
/// error of the write.
const UNREAD_STATUS: u8 = 141;

/// Why a program ends before it is done.
pub enum Stop {
    Wrong(String),
    /// Nobody reads what it writes any more, so there is nothing to say.
    Unread,
}

impl From<String> for Stop {
    fn from(what: String) -> Stop {
        Stop::Wrong(what)
    }
}

/// An output that cannot be written, for `map_err`.
pub fn unwritten(program: &'static str) -> impl Fn(io::Error) -> Stop {
    move |error| match error.kind() {
        io::ErrorKind::BrokenPipe => Stop::Unread,
        _ => Stop::Wrong(format!(
            "{}: the output could not be written: {}",
            program, error
        )),
    }
}

/// Runs a program on its arguments.
pub fn ended(run: fn(&[String]) -> Result<(), Stop>) -> ExitCode {
    let arguments: Vec<String> = std::env::args_os()
        .skip(1)
        .map(|argument| argument.to_string_lossy().into_owned())
        .collect();
    match run(&arguments) {
        Ok(()) => ExitCode::SUCCESS,
        Err(Stop::Unread) => ExitCode::from(UNREAD_STATUS),
        Err(Stop::Wrong(what)) => {
            eprintln!("{}", what);
            ExitCode::FAILURE
        }
    }
}
