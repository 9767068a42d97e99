//! Readable text to event bytes.
//!
//! One record a line; `#` starts a comment; blank lines are fine:
//!
//! ```text
//! open 2 2                  # shares of tenants 1, 2, ...; the rest 0
//! grant 1 40
//! begin 1 awaited 1 reads 3 5 writes 10
//! finish 1 1
//! recheck 2 1
//! scan 2
//! pick
//! deliver 1 1
//! evict 1 1
//! cancel 2 1
//! raw 05 00 ff              # bytes that are no well-formed record
//! ```
//!
//! A number may be any that its field of the record can hold: a file with
//! tenant 200 is a file worth writing, for its refusal.

use crate::encode::encode;
use second::reader::{tag, Event, MOST_BYTES};
use second::table::TENANTS;
use std::fmt;

/// The words that a line may start with.
pub const WORDS: &str =
    "open, grant, begin, finish, recheck, scan, pick, deliver, evict, cancel, raw";

const BEGIN_PARTS: [&str; 3] = ["awaited", "reads", "writes"];

/// The most characters of a word that a message shows.
const SHOWN: usize = 40;

#[derive(Clone, Debug, PartialEq, Eq)]
pub struct WrongLine {
    pub line: usize,
    pub what: String,
}

impl fmt::Display for WrongLine {
    fn fmt(&self, out: &mut fmt::Formatter<'_>) -> fmt::Result {
        write!(out, "line {}: {}", self.line, self.what)
    }
}

/// What some editors put before UTF-8 text.
pub(crate) const BYTE_ORDER_MARK: &str = "\u{FEFF}";

/// Whether an input is text, by how it begins: with a blank, a line end or
/// another printable character of ASCII, or with the byte-order mark. Any other
/// input is an event file, and so is an empty one. A record begins with its
/// tag, 01 to 09 or 0B. Of these 09, an Evict's, is a blank too: no text goes on
/// with a zero byte, and an Evict does.
pub fn is_text(input: &[u8]) -> bool {
    match input {
        [tag::EVICT, 0, ..] => false,
        [b'\t' | b'\n' | b'\r' | b' '..=b'~', ..] => true,
        _ => input.starts_with(BYTE_ORDER_MARK.as_bytes()),
    }
}

/// The event bytes of a text, or its first wrong line. They may be more than an
/// event file holds, so that such a file can be written, for its refusal.
pub fn to_bytes(text: &[u8]) -> Result<Vec<u8>, WrongLine> {
    to_bytes_up_to(usize::MAX, text)
}

/// The same of a text that is to be run: the line at which the events become
/// too many for an event file is wrong.
pub fn to_file(text: &[u8]) -> Result<Vec<u8>, WrongLine> {
    to_bytes_up_to(MOST_BYTES, text)
}

fn to_bytes_up_to(most: usize, text: &[u8]) -> Result<Vec<u8>, WrongLine> {
    let mut out = Vec::new();
    for (number, (mark, line)) in (1..).zip(marked_lines(text)) {
        add_line(mark, line, &mut out)
            .and_then(|()| within(most, out.len()))
            .map_err(|what| WrongLine { line: number, what })?;
    }
    Ok(out)
}

/// The lines of a text, each with the mark that it may begin with.
pub(crate) fn marked_lines(text: &[u8]) -> impl Iterator<Item = (&'static str, &[u8])> {
    let marks = std::iter::once(BYTE_ORDER_MARK).chain(std::iter::repeat(""));
    marks.zip(text.split(|&byte| byte == b'\n'))
}

fn within(most: usize, bytes: usize) -> Result<(), String> {
    if bytes > most {
        return Err(format!(
            "the events up to here take {} bytes (at most {} fit an event file)",
            bytes, most
        ));
    }
    Ok(())
}

/// A mark that the line begins with is no part of its words, but of its bytes.
pub(crate) fn add_line(mark: &str, line: &[u8], out: &mut Vec<u8>) -> Result<(), String> {
    let mut words = Words::of(code(mark, line)?);
    match words.next() {
        Some(word) => add_record(word, words, out),
        None => Ok(()),
    }
}

/// A line without the mark that it may begin with and without its comment.
pub(crate) fn code<'a>(mark: &str, line: &'a [u8]) -> Result<&'a str, String> {
    let line = std::str::from_utf8(line).map_err(|error| {
        let at = error.valid_up_to();
        format!("byte {} (hex {:02x}) is not UTF-8 text", at + 1, line[at])
    })?;
    let line = line.strip_prefix(mark).unwrap_or(line);
    Ok(line.split('#').next().unwrap_or(""))
}

fn add_record(word: &str, mut words: Words<'_>, out: &mut Vec<u8>) -> Result<(), String> {
    if word == "raw" {
        return add_raw(words, out);
    }
    match call(word, &mut words)? {
        Some(call) => encode(call.event(), out),
        None => Err(unknown(word, WORDS)),
    }
}

pub(crate) fn unknown(word: &str, known: &str) -> String {
    format!("unknown word \"{}\" (known: {})", shown(word), known)
}

/// A call as a line of text gives it, with lists of its own.
#[derive(Clone, Debug, PartialEq, Eq)]
pub enum Call {
    Open {
        shares: Vec<u8>,
    },
    Begin {
        tenant: u8,
        awaited: u8,
        reads: Vec<u8>,
        writes: Vec<u8>,
    },
    /// A call without lists.
    Plain(Event<'static>),
}

impl Call {
    /// The same with the lists lent.
    pub fn event(&self) -> Event<'_> {
        match self {
            Call::Open { shares } => Event::Open { shares },
            Call::Begin {
                tenant,
                awaited,
                reads,
                writes,
            } => Event::Begin {
                tenant: *tenant,
                awaited: *awaited,
                reads,
                writes,
            },
            Call::Plain(event) => *event,
        }
    }
}

/// The call that begins with this word and has these words behind it, up to the
/// end of the line; nothing if no call begins so. Its lists may be longer than
/// those that a record of an event file holds.
pub(crate) fn call(word: &str, words: &mut Words<'_>) -> Result<Option<Call>, String> {
    let event = match word {
        "open" => return open(words).map(Some),
        "begin" => return begin(words).map(Some),
        "grant" => Event::Grant {
            tenant: words.byte("tenant")?,
            amount: words.number("amount", u32::MAX)?,
        },
        "finish" => Event::Finish {
            tenant: words.byte("tenant")?,
            serial: words.serial()?,
        },
        "recheck" => Event::Recheck {
            tenant: words.byte("tenant")?,
            serial: words.serial()?,
        },
        "scan" => Event::Scan {
            tenant: words.byte("tenant")?,
        },
        "pick" => Event::Pick,
        "deliver" => Event::Deliver {
            tenant: words.byte("tenant")?,
            serial: words.serial()?,
        },
        "evict" => Event::Evict {
            tenant: words.byte("tenant")?,
            serial: words.serial()?,
        },
        "cancel" => Event::Cancel {
            tenant: words.byte("tenant")?,
            serial: words.serial()?,
        },
        _ => return Ok(None),
    };
    words.end()?;
    Ok(Some(Call::Plain(event)))
}

fn open(words: &mut Words<'_>) -> Result<Call, String> {
    let mut shares = words.bytes("share", &[])?;
    if shares.len() > TENANTS {
        return Err(format!(
            "{} shares are too many (at most {})",
            shares.len(),
            TENANTS
        ));
    }
    shares.resize(TENANTS, 0);
    Ok(Call::Open { shares })
}

/// The parts may come in any order, each at most once.
fn begin(words: &mut Words<'_>) -> Result<Call, String> {
    let tenant = words.byte("tenant")?;
    let (mut awaited, mut reads, mut writes) = (None, None, None);
    while let Some(part) = words.next() {
        match part {
            "awaited" => set_once(&mut awaited, part, words.byte("awaited")?)?,
            "reads" => set_once(&mut reads, part, words.records(part)?)?,
            "writes" => set_once(&mut writes, part, words.records(part)?)?,
            _ => {
                return Err(format!(
                    "\"{}\" is not awaited, reads or writes",
                    shown(part)
                ))
            }
        }
    }
    Ok(Call::Begin {
        tenant,
        awaited: awaited.unwrap_or(0),
        reads: reads.unwrap_or_default(),
        writes: writes.unwrap_or_default(),
    })
}

fn set_once<T>(slot: &mut Option<T>, part: &str, value: T) -> Result<(), String> {
    match slot.replace(value) {
        None => Ok(()),
        Some(_) => Err(format!("{} is given twice", part)),
    }
}

fn add_raw(words: Words<'_>, out: &mut Vec<u8>) -> Result<(), String> {
    let start = out.len();
    for word in words {
        out.push(hex_byte(word)?);
    }
    if out.len() == start {
        return Err(String::from("a byte is missing"));
    }
    Ok(())
}

fn hex_byte(word: &str) -> Result<u8, String> {
    let two_digits = word.len() == 2 && word.bytes().all(|c| c.is_ascii_hexdigit());
    match u8::from_str_radix(word, 16) {
        Ok(byte) if two_digits => Ok(byte),
        _ => Err(format!(
            "\"{}\" is not a byte of two hex digits",
            shown(word)
        )),
    }
}

/// A word of the text as a message shows it. Bytes that were no text may have
/// been read as such, so it is kept short, and what cannot be printed is
/// written out.
pub(crate) fn shown(word: &str) -> String {
    let start: String = word.chars().take(SHOWN).collect();
    let cut = if start.len() < word.len() { "..." } else { "" };
    format!("{}{}", start.escape_debug(), cut)
}

/// The words of a line, taken one after the other.
pub(crate) struct Words<'a> {
    words: std::iter::Peekable<std::str::SplitWhitespace<'a>>,
}

impl<'a> Iterator for Words<'a> {
    type Item = &'a str;

    fn next(&mut self) -> Option<&'a str> {
        self.words.next()
    }
}

impl<'a> Words<'a> {
    pub(crate) fn of(line: &'a str) -> Words<'a> {
        Words {
            words: line.split_whitespace().peekable(),
        }
    }

    /// The next word, which stays.
    pub(crate) fn peek(&mut self) -> Option<&'a str> {
        self.words.peek().copied()
    }

    /// The next word as a number from 0 to `most`.
    fn number(&mut self, field: &str, most: u32) -> Result<u32, String> {
        let word = match self.next() {
            Some(word) => word,
            None => return Err(format!("{} is missing", field)),
        };
        if !word.bytes().all(|c| c.is_ascii_digit()) {
            return Err(format!("{}: \"{}\" is not a number", field, shown(word)));
        }
        match word.parse::<u32>() {
            Ok(number) if number <= most => Ok(number),
            _ => Err(format!(
                "{}: {} is not in 0 to {}",
                field,
                shown(word),
                most
            )),
        }
    }

    fn byte(&mut self, field: &str) -> Result<u8, String> {
        Ok(self.number(field, u32::from(u8::MAX))? as u8)
    }

    fn serial(&mut self) -> Result<u16, String> {
        Ok(self.number("serial", u32::from(u16::MAX))? as u16)
    }

    /// The words up to the end of the line, or up to one of `stops`, as numbers
    /// from 0 to 255.
    pub(crate) fn bytes(&mut self, field: &str, stops: &[&str]) -> Result<Vec<u8>, String> {
        let mut bytes = Vec::new();
        while let Some(word) = self.words.peek() {
            if stops.contains(word) {
                break;
            }
            bytes.push(self.byte(field)?);
        }
        Ok(bytes)
    }

    /// A list of records; an empty list is written by leaving its part out.
    fn records(&mut self, part: &str) -> Result<Vec<u8>, String> {
        let records = self.bytes("record", &BEGIN_PARTS)?;
        if records.is_empty() {
            return Err(format!("a record is missing after {}", part));
        }
        Ok(records)
    }

    pub(crate) fn end(&mut self) -> Result<(), String> {
        match self.next() {
            Some(word) => Err(format!("\"{}\" is one word too many", shown(word))),
            None => Ok(()),
        }
    }
}
