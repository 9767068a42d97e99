//! What a text says of its calls: its comments, each with the place of its call
//! in the event file.

use crate::text::{add_line, marked_lines};
use std::collections::BTreeMap;

/// What is said of a call, in paragraphs: lines of comment above it, one below
/// the other, are one, and so is the comment beside it.
pub type Said = Vec<String>;

/// What is said of each call, by the byte at which its record begins. What
/// stands below the last call is said of that one. A text that is not right is
/// read up to its first wrong line.
pub fn comments(text: &[u8]) -> BTreeMap<usize, Said> {
    let mut found: BTreeMap<usize, Said> = BTreeMap::new();
    let mut events = Vec::new();
    let mut said = Said::new();
    let mut goes_on = false;
    let mut last_call = 0;
    for (mark, line) in marked_lines(text) {
        let at = events.len();
        if add_line(mark, line, &mut events).is_err() {
            break;
        }
        let is_call = events.len() > at;
        let comment = comment(line);
        let above = comment.is_some() && !is_call;
        match (comment, said.last_mut()) {
            (Some(more), Some(paragraph)) if goes_on && above => {
                paragraph.push(' ');
                paragraph.push_str(&more);
            }
            (more, _) => said.extend(more),
        }
        goes_on = above;
        if is_call {
            last_call = at;
            found.entry(at).or_default().append(&mut said);
        }
    }
    found.entry(last_call).or_default().append(&mut said);
    found.retain(|_, said| !said.is_empty());
    found
}

/// The words behind the `#` of a line, if there are any.
fn comment(line: &[u8]) -> Option<String> {
    let line = std::str::from_utf8(line).ok()?;
    let (_, comment) = line.split_once('#')?;
    let words: Vec<&str> = comment.split_whitespace().collect();
    if words.is_empty() {
        return None;
    }
    Some(words.join(" "))
}
