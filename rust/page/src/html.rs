//! The page: one file that fetches nothing. Its style and its script stand in
//! `assets`, and are put in whole.

use crate::json;
use crate::steps::Run;

const FRAME: &str = include_str!("../assets/frame.html");
const RUN: &str = include_str!("../assets/run.html");
const STYLE: &str = include_str!("../assets/page.css");

/// In this order: each uses what those before it declare.
const SCRIPTS: [&str; 8] = [
    include_str!("../assets/run.js"),
    include_str!("../assets/words.js"),
    include_str!("../assets/listing.js"),
    include_str!("../assets/queue.js"),
    include_str!("../assets/meters.js"),
    include_str!("../assets/chart.js"),
    include_str!("../assets/quiz.js"),
    include_str!("../assets/stepping.js"),
];

/// A page around a run.
pub struct Page<'a> {
    /// Plain text.
    pub title: &'a str,
    /// What stands before the run and behind it, as HTML.
    pub before: &'a str,
    pub after: &'a str,
    /// The run with its name, in plain text; an index has none.
    pub run: Option<(&'a str, &'a Run)>,
}

impl Page<'_> {
    pub fn html(&self) -> String {
        let (run, script) = match self.run {
            Some((name, run)) => (shown(name), script(run)),
            None => Default::default(),
        };
        filled(
            FRAME,
            &[
                ("title", &escaped(self.title)),
                ("style", STYLE),
                ("before", self.before),
                ("run", &run),
                ("after", self.after),
                ("script", &script),
            ],
        )
    }
}

/// The page of a run by itself.
pub fn page(name: &str, run: &Run) -> String {
    let title = format!("The run of {}", name);
    let page = Page {
        title: &title,
        before: "<h1>Damsonpouch, step by step</h1>\n",
        after: "",
        run: Some((name, run)),
    };
    page.html()
}

fn shown(name: &str) -> String {
    filled(RUN, &[("name", &escaped(name))])
}

fn script(run: &Run) -> String {
    format!(
        "<script type=\"application/json\" id=\"data\">{}</script>\n<script>\n\"use strict\";\n{{\n{}}}\n</script>\n",
        json::run(run),
        SCRIPTS.concat()
    )
}

/// The template with each `{{name}}` replaced; what is put in is not looked at.
fn filled(template: &str, values: &[(&str, &str)]) -> String {
    let mut out = String::new();
    let mut rest = template;
    while let Some((text, after)) = rest.split_once("{{") {
        let (name, after) = after.split_once("}}").expect("a slot is closed");
        let value = values.iter().find(|(known, _)| *known == name);
        out += text;
        out += value.expect("a slot is known").1;
        rest = after;
    }
    out + rest
}

/// Plain text as HTML.
pub fn escaped(text: &str) -> String {
    let mut out = String::new();
    for letter in text.chars() {
        match letter {
            '&' => out += "&amp;",
            '<' => out += "&lt;",
            '>' => out += "&gt;",
            '"' => out += "&quot;",
            _ => out.push(letter),
        }
    }
    out
}
