//! The page as a file, and the program `eventpage`.

use events::long::{long, LONG};
use events::text::to_bytes;
use page::html::page;
use page::steps::Run;
use second::listing;
use std::fs;
use std::path::PathBuf;
use std::process::{Command, Output};

const MOST_BYTES: usize = 3_000_000;

fn made(name: &str, events: &[u8], proved: &str, text: Option<&[u8]>) -> String {
    page(name, &Run::of(events, proved.as_bytes(), text))
}

fn own(events: &[u8]) -> String {
    made("a", events, &listing(events), None)
}

/// What stands between the two, which the page has once.
fn between<'a>(page: &'a str, start: &str, end: &str) -> &'a str {
    let mut parts = page.split(start);
    let (_, rest) = (parts.next(), parts.next().expect(start));
    assert_eq!(parts.next(), None, "{} twice", start);
    rest.split(end).next().expect(end)
}

fn data(page: &str) -> &str {
    between(
        page,
        "<script type=\"application/json\" id=\"data\">",
        "</script>",
    )
}

#[test]
fn the_run_stands_in_the_page() {
    let events = to_bytes(b"open 2\ngrant 1 9\nbegin 1 awaited 2 reads 7 3 writes 3\ndeliver 1 1\nscan 1\nevict 1 1\nraw ff ff ff").expect("a text");
    let found = own(&events);
    let wanted = r#"{"line":"no call answer burnt left","steps":[
{"line":"1 open ok 0 -","call":"open 2","shares":[2,0,0,0,0,0,0,0,0,0,0,0,0,0,0,0]},
{"line":"2 grant ok 0 9","call":"grant 1 9","granted":9},
{"line":"3 begin waiting:1.1 6 3","call":"begin 1 awaited 2 reads 7 3 writes 3","bill":[["now",3],["release",3]],"joins":{"tenant":1,"serial":1,"state":"waiting","awaited":2,"due":2,"reads":[7],"writes":[3],"look":3}},
{"line":"4 deliver waiting:1.1 0 3","call":"deliver 1 1","becomes":[0,"waiting",1]},
{"line":"5 scan refused:9 1 2","call":"scan 1","bill":[["search",1],["looks",0,0]]},
{"line":"6 evict done 0 2","call":"evict 1 1","leaves":0},
{"line":"7 file refused:20 0 -"}
]}"#;
    assert_eq!(data(&found), wanted);
}

/// Nothing that is fetched: no address in the page's own elements, and the
/// browser is told to fetch nothing.
#[test]
fn the_page_is_one_file() {
    let page = own(&to_bytes(b"open 2").expect("a text"));
    for word in [
        " src=", "<link", "<img", "<iframe", "@import", "http:", "https:", "fetch(", "import ",
    ] {
        let found = page.replace("\"http://www.w3.org/2000/svg\"", "");
        assert!(!found.contains(word), "{}", word);
    }
    let policy = "default-src 'none'; style-src 'unsafe-inline'; script-src 'unsafe-inline'";
    assert!(page.contains(policy));
    assert!(page.starts_with("<!DOCTYPE html>\n"));
    assert!(!page.contains("{{"), "a slot is left");
}

/// Whatever stands in a name, a listing or a comment is text on the page.
#[test]
fn what_is_put_in_stays_text() {
    let text = "open # </script><script>alert(1)</script> \"\\ \u{0}\u{7f}\n";
    let events = to_bytes(text.as_bytes()).expect("a text");
    let proved = "</script><b>\n\t\n";
    let page = made("<b>&\"", &events, proved, Some(text.as_bytes()));
    assert!(page.contains("<title>The run of &lt;b&gt;&amp;&quot;</title>"));
    let data = data(&page);
    assert!(!data.contains('<'));
    assert!(
        data.contains(r#""line":"\u003c/script>\u003cb>""#),
        "{}",
        data
    );
    assert!(
        data.contains(r#""\u003c/script>\u003cscript>alert(1)\u003c/script> \"\\ \u0000\u007f""#),
        "{}",
        data
    );
    assert_eq!(page.matches("<script").count(), 2);
}

#[test]
fn long_runs_are_small() {
    for (name, _) in LONG {
        let events = long(name, 1).expect("a long file");
        let page = own(&events);
        assert!(page.len() < MOST_BYTES, "{}: {} bytes", name, page.len());
    }
    // As many begins, and scans, as a file holds, and the longest answers.
    let mut begins = String::from("open 64\ngrant 1 1000000000\n");
    let mut scans = begins.clone();
    for _ in 0..5_458 {
        begins += "begin 1\nfinish 1 1\n";
    }
    for _ in 0..16_377 {
        scans += "scan 1\n";
    }
    let mut file = to_bytes(begins.as_bytes()).expect("a text");
    // Each Finish names the request that was begun before it.
    for (round, record) in file[27..].chunks_exact_mut(12).enumerate() {
        record[10..].copy_from_slice(&(round as u16 + 1).to_be_bytes());
    }
    assert!(listing(&file).ends_with("done 0 999989084\n"));
    for (file, bytes) in [
        (file, 65_523),
        (to_bytes(scans.as_bytes()).expect("a text"), 65_535),
    ] {
        assert_eq!(file.len(), bytes);
        let page = own(&file);
        assert!(page.len() < MOST_BYTES, "{} bytes", page.len());
    }
}

struct Folder(PathBuf);

impl Folder {
    fn new(name: &str) -> Folder {
        let path = std::env::temp_dir().join(format!("page-{}-{}", name, std::process::id()));
        fs::create_dir(&path).expect("a folder");
        Folder(path)
    }

    fn put(&self, name: &str, bytes: &[u8]) -> String {
        let path = self.path(name);
        fs::write(&path, bytes).expect("a file");
        path
    }

    fn path(&self, name: &str) -> String {
        self.0.join(name).to_string_lossy().into_owned()
    }
}

impl Drop for Folder {
    fn drop(&mut self) {
        let _ = fs::remove_dir_all(&self.0);
    }
}

fn eventpage(arguments: &[&str]) -> Output {
    let mut program = Command::new(env!("CARGO_BIN_EXE_eventpage"));
    program.args(arguments).output().expect("it runs")
}

fn said(output: &Output) -> (Option<i32>, String) {
    assert_eq!(output.stdout, b"");
    let words = String::from_utf8_lossy(&output.stderr).into_owned();
    (output.status.code(), words)
}

#[test]
fn eventpage_writes_the_page() {
    let folder = Folder::new("writes");
    let text = "open 2 # two\npick # nothing 0 - the queue is empty\n";
    let events = to_bytes(text.as_bytes()).expect("a text");
    let proved = listing(&events);
    let input = folder.put("input", text.as_bytes());
    let events_file = folder.put("events", &events);
    let listing_file = folder.put("listing", proved.as_bytes());
    let out = folder.path("out.html");
    let output = eventpage(&["sale.txt", &events_file, &listing_file, &input, &out]);
    assert_eq!(said(&output), (Some(0), String::new()));
    let page = fs::read_to_string(&out).expect("a page");
    assert_eq!(
        page,
        made("sale.txt", &events, &proved, Some(text.as_bytes()))
    );
    assert!(data(&page).contains(r#""said":["the queue is empty"]"#));
    // An event file has no comments.
    let output = eventpage(&["a", &events_file, &listing_file, &events_file, &out]);
    assert_eq!(said(&output), (Some(0), String::new()));
    let page = fs::read_to_string(&out).expect("a page");
    assert!(!data(&page).contains("\"said\""));
}

#[test]
fn eventpage_tells_a_listing_that_differs() {
    let folder = Folder::new("differs");
    let events = to_bytes(b"open 2\npick\npick\n").expect("a text");
    let proved = listing(&events).replace("2 pick nothing", "2 pick free:1.1");
    let events_file = folder.put("events", &events);
    let listing_file = folder.put("listing", proved.as_bytes());
    let out = folder.path("out.html");
    let output = eventpage(&["a", &events_file, &listing_file, &events_file, &out]);
    let words =
        "the second program differs from the proved listing in 1 line(s), in red on the page\n";
    assert_eq!(said(&output), (Some(1), words.to_string()));
    let page = fs::read_to_string(&out).expect("it is written all the same");
    assert!(page.contains(r#""difference":"the second program has \"2 pick nothing 0 -\\n\"""#));
}

#[test]
fn eventpage_tells_what_it_cannot_read_or_write() {
    let folder = Folder::new("cannot");
    let empty = folder.put("empty", b"");
    let out = folder.path("out.html");
    let usage = "usage: eventpage NAME EVENTS LISTING INPUT OUT\n";
    assert_eq!(said(&eventpage(&[])), (Some(1), usage.to_string()));
    let none = folder.path("none");
    let (status, words) = said(&eventpage(&["a", &none, &empty, &empty, &out]));
    assert_eq!(status, Some(1));
    assert!(
        words.starts_with(&format!("eventpage: {}: ", none)),
        "{}",
        words
    );
    let nowhere = folder.path("none/out.html");
    let (status, words) = said(&eventpage(&["a", &empty, &empty, &empty, &nowhere]));
    assert_eq!(status, Some(1));
    assert!(
        words.starts_with(&format!("eventpage: {}: ", nowhere)),
        "{}",
        words
    );
}
