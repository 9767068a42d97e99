//! The little of Markdown that the lesson is written in, as HTML: headings,
//! paragraphs, text that is set off by four blanks, code, bold and links.

use crate::html::escaped;

#[derive(Clone, Debug, PartialEq, Eq)]
pub enum Block {
    /// The text behind so many `#`.
    Heading(usize, String),
    Paragraph(String),
    /// The lines without the four blanks.
    Code(Vec<String>),
}

const CODE_INDENT: &str = "    ";

/// The blocks of a text, which an empty line parts.
pub fn blocks(text: &str) -> Vec<Block> {
    let mut blocks = Vec::new();
    let mut goes_on = false;
    for line in text.lines() {
        let found = match line.strip_prefix(CODE_INDENT) {
            _ if line.trim().is_empty() => None,
            Some(code) => Some(Block::Code(vec![code.to_string()])),
            None => Some(heading(line).unwrap_or_else(|| Block::Paragraph(line.to_string()))),
        };
        match (blocks.last_mut(), &found) {
            (Some(Block::Code(lines)), Some(Block::Code(more))) if goes_on => {
                lines.extend_from_slice(more)
            }
            (Some(Block::Paragraph(text)), Some(Block::Paragraph(more))) if goes_on => {
                text.push('\n');
                text.push_str(more);
            }
            _ => blocks.extend(found.clone()),
        }
        goes_on = found.is_some();
    }
    blocks
}

fn heading(line: &str) -> Option<Block> {
    let text = line.trim_start_matches('#');
    let level = line.len() - text.len();
    let text = text.strip_prefix(' ')?;
    if level == 0 {
        return None;
    }
    Some(Block::Heading(level, text.to_string()))
}

/// How a page names what the text names otherwise.
pub trait Names {
    /// Where a link leads from the page.
    fn link(&self, target: &str) -> String;
    /// Plain text, which may gain links of its own, as HTML.
    fn plain(&self, text: &str) -> String;
    /// A line that is set off, as HTML.
    fn code_line(&self, line: &str) -> String;
}

pub fn html(block: &Block, names: &impl Names) -> String {
    match block {
        Block::Heading(level, text) => format!("<h{0}>{1}</h{0}>\n", level, inline(text, names)),
        Block::Paragraph(text) => format!("<p>{}</p>\n", inline(text, names)),
        Block::Code(lines) => {
            let lines: Vec<String> = lines.iter().map(|line| names.code_line(line)).collect();
            format!("<pre>{}</pre>\n", lines.join("\n"))
        }
    }
}

/// A run of text: `code`, **bold** and [links](target) in it.
pub fn inline(text: &str, names: &impl Names) -> String {
    match marked(text) {
        Some((before, Marked::Code(code), after)) => format!(
            "{}<code>{}</code>{}",
            names.plain(before),
            escaped(code),
            inline(after, names)
        ),
        Some((before, Marked::Bold(bold), after)) => format!(
            "{}<strong>{}</strong>{}",
            names.plain(before),
            inline(bold, names),
            inline(after, names)
        ),
        Some((before, Marked::Link(words, target), after)) => format!(
            "{}<a href=\"{}\">{}</a>{}",
            names.plain(before),
            escaped(&names.link(target)),
            inline(words, names),
            inline(after, names)
        ),
        None => names.plain(text),
    }
}

enum Marked<'a> {
    Code(&'a str),
    Bold(&'a str),
    Link(&'a str, &'a str),
}

/// The first thing in a text that is marked, with what stands before and behind
/// it. A mark that has no end is plain text.
fn marked(text: &str) -> Option<(&str, Marked<'_>, &str)> {
    let mut marks = text.match_indices(['`', '*', '[']);
    marks.find_map(|(at, _)| {
        let (before, rest) = text.split_at(at);
        let (found, after) = code(rest).or_else(|| bold(rest)).or_else(|| link(rest))?;
        Some((before, found, after))
    })
}

fn code(text: &str) -> Option<(Marked<'_>, &str)> {
    let (code, after) = text.strip_prefix('`')?.split_once('`')?;
    Some((Marked::Code(code), after))
}

fn bold(text: &str) -> Option<(Marked<'_>, &str)> {
    let (bold, after) = text.strip_prefix("**")?.split_once("**")?;
    Some((Marked::Bold(bold), after))
}

fn link(text: &str) -> Option<(Marked<'_>, &str)> {
    let (words, rest) = text.strip_prefix('[')?.split_once(']')?;
    let (target, after) = rest.strip_prefix('(')?.split_once(')')?;
    Some((Marked::Link(words, target), after))
}
