//! The texts in `examples/` do what they say: beside each call stand its
//! answer, the units burnt, the fuel left, and why.

use events::text::{is_text, to_bytes};
use second::listing;
use std::fs;
use std::path::{Path, PathBuf};

const NAMES: [&str; 11] = [
    "twelve-lines",
    "sale",
    "dry",
    "front",
    "neighbour",
    "letgo",
    "early",
    "stock",
    "which",
    "order",
    "hung",
];

fn folder() -> PathBuf {
    Path::new(env!("CARGO_MANIFEST_DIR")).join("../../examples")
}

/// All texts by name, also those that come later. Other files are programs that
/// link the calls.
fn examples() -> Vec<(String, String)> {
    let mut examples = Vec::new();
    for file in fs::read_dir(folder()).expect("there is a folder of examples") {
        let path = file.expect("a file").path();
        if path.extension().map_or(true, |kind| kind != "txt") {
            continue;
        }
        let name = path.file_stem().expect("a name").to_string_lossy();
        let text = fs::read_to_string(&path).expect("a text");
        examples.push((name.into_owned(), text));
    }
    examples
}

/// The calls of a text with what stands beside them.
fn calls(text: &str) -> Vec<(&str, &str)> {
    let lines = text.lines().filter(|line| !line.starts_with('#'));
    let calls = lines.filter(|line| !line.is_empty());
    calls
        .map(|line| line.split_once(" # ").expect("a call is explained"))
        .collect()
}

#[test]
fn the_eleven_are_there() {
    let found: Vec<String> = examples().into_iter().map(|(name, _)| name).collect();
    for name in NAMES {
        assert!(found.iter().any(|known| known == name), "{}", name);
    }
}

#[test]
fn every_line_is_as_its_comment_says() {
    for (name, text) in examples() {
        assert!(is_text(text.as_bytes()), "{}", name);
        let file = to_bytes(text.as_bytes()).expect("a right text");
        let listing = listing(&file);
        let calls = calls(&text);
        assert_eq!(listing.lines().count(), 1 + calls.len(), "{}", name);
        assert!(calls.len() < 30, "{} is long", name);
        for (line, (call, comment)) in listing.lines().skip(1).zip(calls) {
            let fields: Vec<&str> = line.split(' ').collect();
            let said: Vec<&str> = comment.split_whitespace().collect();
            assert_eq!(Some(fields[1]), call.split_whitespace().next(), "{}", name);
            assert!(said.len() > 3, "{}: {} is not explained", name, call);
            assert_eq!(said[..3], fields[2..], "{}: {}", name, call);
        }
    }
}
