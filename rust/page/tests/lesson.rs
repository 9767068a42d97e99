//! The lesson's pages: the little of Markdown that it is written in, where the
//! run stands in a chapter, and what leads to a step.

use events::text::to_bytes;
use page::lesson::{Lesson, INDEX};
use page::markdown::{blocks, Block};
use page::steps::Run;
use second::listing;
use std::fs;
use std::path::Path;
use std::process::Command;

const TEXT: &str = "\
# A lesson

Read <this>, 2 * 3 [not], **not `that`**: [CALLS](CALLS.md), `**`, in line 1.

[As pages](lesson/index.html)

## Chapter 1: \"Wait\"

    bin/lockrun --show examples/one.txt

[Step through it](lesson/1-one.html)

First line 2 and then
lines 1 to 2, and line 3.

**What happens.** On lines 1, 2 and 9, fine 1, in the line
2 of it, and deadline 2:

    2 pick nothing 0 -
        queue empty

## Chapter 2: Go

    bin/lockrun --show examples/two.txt

[Step through it](lesson/2-two.html)

All is told.
";

fn run() -> Run {
    let events = to_bytes(b"open 2\npick\n").expect("a text");
    Run::of(&events, listing(&events).as_bytes(), None)
}

fn lesson() -> Lesson {
    Lesson::of(TEXT).expect("a right lesson")
}

/// The body of a page without what every page has.
fn body(page: &str) -> Vec<&str> {
    let body = page.split("<main>\n").nth(1).expect("a body");
    body.split("</main>")
        .next()
        .expect("its end")
        .lines()
        .collect()
}

fn at(lines: &[&str], wanted: &str) -> usize {
    let mut found = lines
        .iter()
        .enumerate()
        .filter(|(_, line)| **line == wanted);
    let place = found
        .next()
        .unwrap_or_else(|| panic!("no {} in {:#?}", wanted, lines))
        .0;
    assert!(found.next().is_none(), "{} twice", wanted);
    place
}

#[test]
fn blocks_are_parted_by_empty_lines() {
    let paragraph = |text: &str| Block::Paragraph(text.to_string());
    let code = |lines: &[&str]| Block::Code(lines.iter().map(|line| line.to_string()).collect());
    assert_eq!(
        blocks("# a\n## b c\n#d\ne\n\nf\n\n    g\n      h\n\n    i\nj\n"),
        [
            Block::Heading(1, String::from("a")),
            Block::Heading(2, String::from("b c")),
            paragraph("#d\ne"),
            paragraph("f"),
            code(&["g", "  h"]),
            code(&["i"]),
            paragraph("j"),
        ]
    );
}

#[test]
fn a_chapter_has_its_run_before_what_happens() {
    let page = lesson().page(0, &run());
    let lines = body(&page);
    let order = [
        at(&lines, "<h1>Chapter 1: &quot;Wait&quot;</h1>"),
        at(&lines, "<pre>bin/lockrun --show examples/one.txt</pre>"),
        at(&lines, "<p>First line <a href=\"#2\">2</a> and then"),
        at(&lines, "lines <a href=\"#1\">1</a> to <a href=\"#2\">2</a>, and line 3.</p>"),
        at(&lines, "<h2 id=\"run-name\">The run of <code>one.txt</code></h2>"),
        at(
            &lines,
            "<p><strong>What happens.</strong> On lines <a href=\"#1\">1</a>, <a href=\"#2\">2</a> and 9, fine 1, in the line",
        ),
        at(&lines, "<a href=\"#2\">2</a> of it, and deadline 2:</p>"),
        at(&lines, "<pre><a href=\"#2\">2 pick nothing 0 -</a>"),
        at(&lines, "    queue empty</pre>"),
    ];
    assert!(
        order.windows(2).all(|pair| pair[0] < pair[1]),
        "{:?}",
        order
    );
    assert!(!page.contains("Step through it"));
    assert!(page.contains("<title>Chapter 1: &quot;Wait&quot;</title>"));
    assert!(page.contains("\"line\":\"2 pick nothing 0 -\""));
}

#[test]
fn chapters_lead_to_each_other() {
    let lesson = lesson();
    let all = "<a href=\"index.html\">All chapters</a>";
    let first = "<a href=\"1-one.html\">Before: Chapter 1: &quot;Wait&quot;</a>";
    let second = "<a href=\"2-two.html\">Next: Chapter 2: Go</a>";
    for (at, ways) in [(0, [all, second]), (1, [all, first])] {
        let page = lesson.page(at, &run());
        for way in ways {
            assert_eq!(page.matches(way).count(), 2, "{}", way);
        }
        assert_eq!(page.matches("Before: ").count(), 2 * at);
    }
    let page = lesson.page(1, &run());
    let lines = body(&page);
    // What tells nothing comes before the run.
    assert!(
        at(&lines, "<p>All is told.</p>")
            < at(&lines, "<section id=\"run\" aria-labelledby=\"run-name\">")
    );
}

#[test]
fn the_index_leads_to_the_chapters() {
    let page = lesson().index();
    let lines = body(&page);
    at(&lines, "<h1>A lesson</h1>");
    at(
        &lines,
        "<p>Read &lt;this&gt;, 2 * 3 [not], <strong>not <code>that</code></strong>: <a href=\"../CALLS.md\">CALLS</a>, <code>**</code>, in line 1.</p>",
    );
    at(
        &lines,
        "<li><a href=\"1-one.html\">Chapter 1: &quot;Wait&quot;</a></li>",
    );
    at(&lines, "<li><a href=\"2-two.html\">Chapter 2: Go</a></li>");
    assert!(!page.contains("As pages"));
    assert!(!page.contains("<script"));
}

#[test]
fn what_the_text_says_is_escaped_and_linked() {
    let more = "On line\n2, `a<b` and [x](y\"z).\n\n    2 pick <nothing> 0 -\n    2 places <are> free\n    9 pick nothing 0 -\n";
    let text = TEXT.replace("All is told.\n", more);
    let lesson = Lesson::of(&text).expect("a right lesson");
    let page = lesson.page(1, &run());
    let lines = body(&page);
    at(
        &lines,
        "<a href=\"#2\">2</a>, <code>a&lt;b</code> and <a href=\"../y&quot;z\">x</a>.</p>",
    );
    at(&lines, "<pre><a href=\"#2\">2 pick &lt;nothing&gt; 0 -</a>");
    // Neither a line of the listing nor a step.
    at(&lines, "2 places &lt;are&gt; free");
    at(&lines, "9 pick nothing 0 -</pre>");
}

#[test]
fn lessonpages_tells_a_listing_that_differs() {
    let folder = std::env::temp_dir().join(format!("lessonpages-{}", std::process::id()));
    fs::create_dir(&folder).expect("a folder");
    let text = b"open 2\npick\n";
    let events = to_bytes(text).expect("a text");
    let proved = listing(&events).replace("2 pick nothing", "2 pick free:1.1");
    fs::write(folder.join("lesson.md"), TEXT).expect("a file");
    let parts: [(&str, &[u8]); 3] = [
        ("txt", text),
        ("events", &events),
        ("listing", proved.as_bytes()),
    ];
    for (kind, bytes) in parts {
        fs::write(folder.join(format!("one.{}", kind)), bytes).expect("a file");
    }
    let mut program = Command::new(env!("CARGO_BIN_EXE_lessonpages"));
    let arguments = [&folder.join("lesson.md"), &folder, &folder];
    let output = program.args(arguments).output().expect("it runs");
    let pages = fs::read_dir(&folder).expect("the folder").count();
    fs::remove_dir_all(&folder).expect("it is removed");
    assert_eq!(output.status.code(), Some(1));
    let said = String::from_utf8_lossy(&output.stderr);
    assert_eq!(said, "the second program differs on one\n");
    assert_eq!(pages, 4, "no page was written");
}

#[test]
fn what_a_lesson_lacks_is_told() {
    let told = |text: String| Lesson::of(&text).expect_err("it is wrong");
    assert_eq!(told(String::new()), "the lesson has no title");
    assert_eq!(
        told(TEXT.replace("(lesson/index.html)", "")),
        "the lesson has no link to lesson/index.html"
    );
    assert_eq!(
        told(TEXT.replace("lesson/2-two", "lesson/2-one")),
        "the lesson has no link to lesson/2-two.html"
    );
    assert_eq!(
        told(TEXT.replace("examples/one.txt", "one.txt")),
        "Chapter 1: \"Wait\": no command runs an example"
    );
}

/// The lesson of this project: every chapter runs an example that there is.
#[test]
fn the_lesson_has_its_examples() {
    let root = Path::new(env!("CARGO_MANIFEST_DIR")).join("../..");
    let text = fs::read_to_string(root.join("docs/LESSON.md")).expect("the lesson");
    let lesson = Lesson::of(&text).expect("a right lesson");
    assert_eq!(lesson.chapters.len(), text.matches("\n## ").count());
    for chapter in &lesson.chapters {
        let example = root
            .join("examples")
            .join(format!("{}.txt", chapter.example));
        assert!(example.is_file(), "{}", chapter.title);
        assert!(
            root.join("docs/lesson").join(&chapter.file).is_file(),
            "{}",
            chapter.file
        );
    }
    assert!(root.join("docs/lesson").join(INDEX).is_file());
}
