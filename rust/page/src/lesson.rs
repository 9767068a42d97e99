//! The lesson as pages: one for each chapter, with its run in it, and an index.

use crate::html::{escaped, Page};
use crate::markdown::{blocks, html, inline, Block, Names};
use crate::steps::Run;

/// A chapter begins with a heading of this level and these words.
const CHAPTER_LEVEL: usize = 2;
const CHAPTER: &str = "Chapter ";
/// Its first command runs this example.
const COMMAND: &str = "bin/lockrun --show examples/";
const TEXT: &str = ".txt";
/// The run stands before the paragraph that begins so: first the student says
/// what will happen.
const TOLD_AFTER: &str = "**What happens.**";
/// Where the lesson's text finds the pages.
const FOLDER: &str = "lesson/";
pub const INDEX: &str = "index.html";

#[derive(Clone, Debug, PartialEq, Eq)]
pub struct Lesson {
    pub title: String,
    intro: Vec<Block>,
    pub chapters: Vec<Chapter>,
}

#[derive(Clone, Debug, PartialEq, Eq)]
pub struct Chapter {
    pub title: String,
    /// The example that it runs.
    pub example: String,
    /// Its page's file.
    pub file: String,
    text: Vec<Block>,
}

impl Lesson {
    /// The lesson of a text, or what is missing in it.
    pub fn of(text: &str) -> Result<Lesson, String> {
        let mut blocks = blocks(text).into_iter();
        let title = match blocks.next() {
            Some(Block::Heading(1, title)) => title,
            _ => return Err(String::from("the lesson has no title")),
        };
        let mut lesson = Lesson {
            title,
            intro: Vec::new(),
            chapters: Vec::new(),
        };
        for block in blocks {
            match (block, lesson.chapters.last_mut()) {
                (Block::Heading(CHAPTER_LEVEL, title), _) if title.starts_with(CHAPTER) => {
                    lesson.chapters.push(Chapter::titled(title))
                }
                (block, Some(chapter)) => chapter.text.push(block),
                (block, None) => lesson.intro.push(block),
            }
        }
        drop_link(&mut lesson.intro, INDEX)?;
        for (at, chapter) in lesson.chapters.iter_mut().enumerate() {
            chapter.find_example(at + 1)?;
            drop_link(&mut chapter.text, &chapter.file)?;
        }
        Ok(lesson)
    }

    /// The page of a chapter, from 0, with its run.
    pub fn page(&self, at: usize, run: &Run) -> String {
        let chapter = &self.chapters[at];
        let names = OnPage {
            steps: run.steps.len(),
        };
        let told = chapter.text.iter().position(tells);
        let (first, rest) = chapter.text.split_at(told.unwrap_or(chapter.text.len()));
        let ways = self.ways(at);
        let title = inline(&chapter.title, &names);
        let first = prose("prose", first, &names);
        let rest = prose("prose told", rest, &names);
        let name = format!("{}{}", chapter.example, TEXT);
        let page = Page {
            title: &chapter.title,
            before: &format!("{}<h1>{}</h1>\n{}", ways, title, first),
            after: &(rest + &ways),
            run: Some((&name, run)),
        };
        page.html()
    }

    /// The way to the index and to the chapters beside this one.
    fn ways(&self, at: usize) -> String {
        let mut ways = vec![format!("<a href=\"{}\">All chapters</a>", INDEX)];
        let mut way = |word: &str, chapter: Option<&Chapter>| {
            ways.extend(chapter.map(|chapter| {
                let title = escaped(&chapter.title);
                format!("<a href=\"{}\">{}: {}</a>", chapter.file, word, title)
            }))
        };
        way("Before", at.checked_sub(1).map(|at| &self.chapters[at]));
        way("Next", self.chapters.get(at + 1));
        let ways = ways.join("\n");
        format!(
            "<nav class=\"ways\" aria-label=\"Chapters\">\n{}\n</nav>\n",
            ways
        )
    }

    pub fn index(&self) -> String {
        let names = OnPage { steps: 0 };
        let entry = |chapter: &Chapter| {
            let title = inline(&chapter.title, &names);
            format!("<li><a href=\"{}\">{}</a></li>\n", chapter.file, title)
        };
        let entries: String = self.chapters.iter().map(entry).collect();
        let page = Page {
            title: &self.title,
            before: &format!(
                "<h1>{}</h1>\n{}<nav aria-label=\"Chapters\">\n<ol class=\"chapters\">\n{}</ol>\n</nav>\n",
                inline(&self.title, &names),
                prose("prose", &self.intro, &names),
                entries
            ),
            after: "",
            run: None,
        };
        page.html()
    }
}

impl Chapter {
    fn titled(title: String) -> Chapter {
        Chapter {
            title,
            example: String::new(),
            file: String::new(),
            text: Vec::new(),
        }
    }

    fn find_example(&mut self, number: usize) -> Result<(), String> {
        let commands = self.text.iter().filter_map(|block| match block {
            Block::Code(lines) => Some(lines.iter()),
            _ => None,
        });
        let mut examples = commands.flatten().filter_map(|line| {
            let name = line.strip_prefix(COMMAND)?;
            name.strip_suffix(TEXT)
        });
        self.example = match examples.next() {
            Some(example) => example.to_string(),
            None => return Err(format!("{}: no command runs an example", self.title)),
        };
        self.file = format!("{}-{}.html", number, self.example);
        Ok(())
    }
}

/// The lesson's text leads to each page, by a paragraph that says nothing to
/// whoever is there.
fn drop_link(text: &mut Vec<Block>, file: &str) -> Result<(), String> {
    let link = format!("]({}{})", FOLDER, file);
    let leads = |block: &Block| matches!(block, Block::Paragraph(text) if text.contains(&link));
    let at = text.iter().position(leads);
    let at = at.ok_or_else(|| format!("the lesson has no link to {}{}", FOLDER, file))?;
    text.remove(at);
    Ok(())
}

fn tells(block: &Block) -> bool {
    matches!(block, Block::Paragraph(text) if text.starts_with(TOLD_AFTER))
}

/// Text of the lesson; of the class `told` is what the quiz must not tell.
fn prose(class: &str, blocks: &[Block], names: &OnPage) -> String {
    let text: String = blocks.iter().map(|block| html(block, names)).collect();
    format!("<div class=\"{}\">\n{}</div>\n", class, text)
}

/// On a page: links go from its folder, and a line of the listing that the text
/// speaks of leads to its step.
struct OnPage {
    steps: usize,
}

impl Names for OnPage {
    fn link(&self, target: &str) -> String {
        match target.strip_prefix(FOLDER) {
            Some(page) => page.to_string(),
            None => format!("../{}", target),
        }
    }

    /// `line 8`, `Lines 8 and 9`, `lines 18 to 21`.
    fn plain(&self, text: &str) -> String {
        let mut out = String::new();
        let mut rest = text;
        while let Some((before, after)) = split_at_line(rest) {
            out += &escaped(before);
            rest = self.link_numbers(after, &mut out);
        }
        out + &escaped(rest)
    }

    fn code_line(&self, line: &str) -> String {
        let mut fields = line.split(' ');
        let number = fields.next().unwrap_or("");
        match self.step(number) {
            Some(_) if fields.count() == 4 => step_link(number, line),
            _ => escaped(line),
        }
    }
}

impl OnPage {
    fn step(&self, number: &str) -> Option<usize> {
        let step = number.parse().ok()?;
        Some(step).filter(|step| (1..=self.steps).contains(step))
    }

    /// Links the number that a text begins with, and those behind it; gives the
    /// rest.
    fn link_numbers<'a>(&self, text: &'a str, out: &mut String) -> &'a str {
        let digits = text.find(|letter: char| !letter.is_ascii_digit());
        let (number, after) = text.split_at(digits.unwrap_or(text.len()));
        match self.step(number) {
            Some(_) => *out += &step_link(number, number),
            None => *out += number,
        }
        for word in [" and ", " to ", ", "] {
            if let Some(more) = after.strip_prefix(word) {
                if more.starts_with(|letter: char| letter.is_ascii_digit()) {
                    *out += word;
                    return self.link_numbers(more, out);
                }
            }
        }
        after
    }
}

/// The words before a number that is a step, by a blank or at the end of a line.
const LINE_WORDS: [&str; 4] = ["line ", "lines ", "line\n", "lines\n"];

/// Parts a text behind the first of these words, large or small, that a number
/// follows.
fn split_at_line(text: &str) -> Option<(&str, &str)> {
    let small = text.to_ascii_lowercase();
    let found = LINE_WORDS.iter().flat_map(|word| small.match_indices(word));
    let numbers = found.filter_map(|(at, word)| {
        let end = at + word.len();
        let is_word = !small[..at].ends_with(char::is_alphabetic);
        let is_number = small[end..].starts_with(|letter: char| letter.is_ascii_digit());
        Some(end).filter(|_| is_word && is_number)
    });
    numbers.min().map(|at| text.split_at(at))
}

fn step_link(number: &str, words: &str) -> String {
    format!("<a href=\"#{}\">{}</a>", number, escaped(words))
}
