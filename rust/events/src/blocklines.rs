//! The text that drives a block: lines that set it, make calls on it and show
//! it. Whoever keeps the block is a `Machine`; the reading of the lines and the
//! writing of what they give is all that two machines share.
//!
//! One line each; `#` starts a comment; blank lines are fine:
//!
//! ```text
//! block 11 0010 0202...      # these bytes become the block; none with `block`
//! open 2 2                   # a call, as in `text.rs` but for `raw`
//! open exactly 2 2           # just these shares are handed over: refusal 14
//! held                       # prints `written 2 read 1 either 3`
//! show                       # prints `block HEX`
//! explain                    # prints the block in words
//! ```
//!
//! A call prints its answer and the units burnt, as `free:1.1 4`. `held`, which
//! burns nothing, prints its three counts, or `refused:15 0`. Before the first
//! line the block is 2,176 zero bytes, as a host's fresh memory.

use crate::program::{unwritten, Stop};
use crate::text::{call, code, shown, unknown, Call, Words, WrongLine, BYTE_ORDER_MARK};
use second::{Event, Held};
use std::fs::File;
use std::io::{self, BufRead, BufReader, BufWriter, Write};

/// The words that a line may start with.
const WORDS: &str = "block, held, show, explain, open, grant, begin, finish, recheck, scan, \
                     pick, deliver, evict, cancel";

/// How many zero bytes the block is before the first line.
const FRESH_BYTES: usize = 2_176;

/// Big enough that a block's line is no more than one or two reads.
const BUFFER_BYTES: usize = 1 << 16;

/// Whoever keeps a block and makes calls on it. The lines reach it through these
/// five functions alone, in the order of the text, and it need not know the text.
/// `run` calls `take` before the first line, so a machine may start with any
/// block, also with none.
pub trait Machine {
    /// For `block HEX`: these bytes become the block, be they sound or not. Any
    /// number of them may come, also none, and none of them may be refused here.
    fn take(&mut self, block: &[u8]);

    /// For a line with a call: makes it on the block and says what came of it.
    /// Every number and list is as the line gave it, in range or not: a tenant
    /// of 0 to 255, a share of 0 to 255, lists of any length and order. For Open
    /// there may be fewer or more than 16 shares.
    fn call(&mut self, call: Event<'_>) -> Said;

    /// For `held`: how many records are held, or the number that it is refused
    /// with. The block stays as it is.
    fn held(&self) -> Result<Held, u8>;

    /// For `show`: the block's bytes as they are now.
    fn block(&self) -> &[u8];

    /// For `explain`: the block in words, sound or not, as lines that each end
    /// with a line feed.
    fn explain(&self) -> String;
}

/// What came of a call.
#[derive(Clone, Debug, PartialEq, Eq)]
pub struct Said {
    /// As in the listing of document 01: `ok`, `done`, `still`, `nothing`,
    /// `refused:15`, `free:1.1`, `waiting:1.1` or `blocked:1.1`, and of a Begin
    /// `blocked:1.1@10`.
    pub answer: String,
    /// The units burnt.
    pub burnt: u32,
}

/// A line of the text.
#[derive(Clone, Debug, PartialEq, Eq)]
pub enum Line {
    Block(Vec<u8>),
    Call(Call),
    Held,
    Show,
    Explain,
}

/// Why the lines ended before the last.
#[derive(Debug)]
pub enum Trouble {
    Wrong(WrongLine),
    Unread(io::Error),
    Unwritten(io::Error),
}

/// Runs a program that drives its machine with the lines of the file named by
/// its one argument, or of standard input if there is none. What the lines give
/// goes to standard output. For `program::ended`, so that `main` is
/// `ended(|arguments| program("blockrun", arguments, &mut MyMachine::new()))`.
pub fn program(
    name: &'static str,
    arguments: &[String],
    machine: &mut impl Machine,
) -> Result<(), Stop> {
    let input: Box<dyn io::Read> = match arguments {
        [] => Box::new(io::stdin()),
        [file] if !file.starts_with('-') => match File::open(file) {
            Ok(opened) => Box::new(opened),
            Err(error) => return Err(format!("{}: {}: {}", name, file, error).into()),
        },
        _ => return Err(format!("usage: {} [FILE]", name).into()),
    };
    let lines = BufReader::with_capacity(BUFFER_BYTES, input);
    let mut out = BufWriter::with_capacity(BUFFER_BYTES, io::stdout());
    run(lines, machine, &mut out).map_err(|trouble| match trouble {
        Trouble::Wrong(line) => Stop::Wrong(line.to_string()),
        Trouble::Unread(error) => Stop::Wrong(format!("{}: {}", name, error)),
        Trouble::Unwritten(error) => unwritten(name)(error),
    })
}

/// Drives a machine with these lines, one at a time, and writes what they give.
/// At a wrong line it stops; what the lines before it gave has then been written,
/// as it has at the end of the lines.
pub fn run(
    mut lines: impl BufRead,
    machine: &mut impl Machine,
    out: &mut impl Write,
) -> Result<(), Trouble> {
    machine.take(&[0; FRESH_BYTES]);
    let ended = run_lines(&mut lines, machine, out);
    match (ended, out.flush().map_err(Trouble::Unwritten)) {
        (Ok(()), flushed) => flushed,
        (ended, _) => ended,
    }
}

fn run_lines(
    lines: &mut impl BufRead,
    machine: &mut impl Machine,
    out: &mut impl Write,
) -> Result<(), Trouble> {
    let mut bytes = Vec::new();
    for number in 1.. {
        bytes.clear();
        if lines
            .read_until(b'\n', &mut bytes)
            .map_err(Trouble::Unread)?
            == 0
        {
            break;
        }
        let mark = if number == 1 { BYTE_ORDER_MARK } else { "" };
        let line =
            parse(mark, &bytes).map_err(|what| Trouble::Wrong(WrongLine { line: number, what }))?;
        if let Some(line) = line {
            obey(&line, machine, out).map_err(Trouble::Unwritten)?;
        }
    }
    Ok(())
}

fn obey(line: &Line, machine: &mut impl Machine, out: &mut impl Write) -> io::Result<()> {
    match line {
        Line::Block(bytes) => {
            machine.take(bytes);
            Ok(())
        }
        Line::Call(call) => {
            let said = machine.call(call.event());
            writeln!(out, "{} {}", said.answer, said.burnt)
        }
        Line::Held => writeln!(out, "{}", held_line(machine.held())),
        Line::Show => writeln!(out, "{}", block_line(machine.block())),
        Line::Explain => out.write_all(machine.explain().as_bytes()),
    }
}

/// What a line says, or nothing for one without a word; a mark that it begins
/// with is skipped. The text of an error says what is wrong.
pub fn parse(mark: &str, line: &[u8]) -> Result<Option<Line>, String> {
    let mut words = Words::of(code(mark, line)?);
    let word = match words.next() {
        Some(word) => word,
        None => return Ok(None),
    };
    let line = match word {
        "block" => return hex_bytes(words).map(Line::Block).map(Some),
        "held" => Line::Held,
        "show" => Line::Show,
        "explain" => Line::Explain,
        "open" if words.peek() == Some("exactly") => {
            words.next();
            let shares = words.bytes("share", &[])?;
            Line::Call(Call::Open { shares })
        }
        _ => match call(word, &mut words)? {
            Some(call) => Line::Call(call),
            None => return Err(unknown(word, WORDS)),
        },
    };
    words.end()?;
    Ok(Some(line))
}

/// Pairs of hex digits of either case, with or without blanks between pairs.
fn hex_bytes(words: Words<'_>) -> Result<Vec<u8>, String> {
    let mut bytes = Vec::with_capacity(FRESH_BYTES);
    for word in words {
        let pairs = word.as_bytes().chunks(2);
        for pair in pairs {
            match hex_pair(pair) {
                Some(byte) => bytes.push(byte),
                None => return Err(format!("\"{}\" is not pairs of hex digits", shown(word))),
            }
        }
    }
    Ok(bytes)
}

fn hex_pair(pair: &[u8]) -> Option<u8> {
    match *pair {
        [high, low] => Some(hex_digit(high)? << 4 | hex_digit(low)?),
        _ => None,
    }
}

fn hex_digit(digit: u8) -> Option<u8> {
    match digit {
        b'0'..=b'9' => Some(digit - b'0'),
        b'a'..=b'f' => Some(digit - b'a' + 10),
        b'A'..=b'F' => Some(digit - b'A' + 10),
        _ => None,
    }
}

/// What `held` prints, without a line feed.
pub fn held_line(held: Result<Held, u8>) -> String {
    match held {
        Ok(Held {
            written,
            read,
            either,
        }) => format!("written {} read {} either {}", written, read, either),
        Err(number) => format!("refused:{} 0", number),
    }
}

/// The line that sets these bytes, without a line feed: small letters, no
/// blanks, and `block` alone for no byte.
pub fn block_line(bytes: &[u8]) -> String {
    const DIGITS: &[u8; 16] = b"0123456789abcdef";
    let mut line = String::with_capacity(6 + 2 * bytes.len());
    line.push_str("block");
    if !bytes.is_empty() {
        line.push(' ');
    }
    for &byte in bytes {
        line.push(char::from(DIGITS[usize::from(byte >> 4)]));
        line.push(char::from(DIGITS[usize::from(byte & 15)]));
    }
    line
}
