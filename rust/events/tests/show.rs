//! The view of `eventshow`: the queue, the counters and the meters below each
//! line, and what is said where the two programs differ.

mod common;

use common::batch;
use events::show::show;
use events::text::to_bytes;
use second::listing;

fn shown(events: &[u8], proved: &str) -> (String, usize) {
    let mut out = Vec::new();
    let different = show(events, proved.as_bytes(), &mut out).expect("memory takes it");
    (String::from_utf8(out).expect("text"), different)
}

fn file(text: &str) -> Vec<u8> {
    to_bytes(text.as_bytes()).expect("a right text")
}

/// The view of a text's calls along their own listing.
fn view(text: &str) -> String {
    let events = file(text);
    let (shown, different) = shown(&events, &listing(&events));
    assert_eq!(different, 0);
    shown
}

#[test]
fn a_queue_with_its_counters() {
    let text = "open 2 2\ngrant 1 40\ngrant 2 40\nbegin 1 writes 10\nbegin 2 reads 11 writes 10\n\
                begin 1 reads 9 11\nfinish 1 1\n";
    let wanted = "\
no call answer burnt left
1 open ok 0 -
    queue empty
    fuel 1=0 2=0, places 1=0/2 2=0/2
2 grant ok 0 40
    queue empty
    fuel 1=40 2=0, places 1=0/2 2=0/2
3 grant ok 0 40
    queue empty
    fuel 1=40 2=40, places 1=0/2 2=0/2
4 begin free:1.1 4 36
    front 1.1 free writes 10
    Cx 10=1
    fuel 1=36 2=40, places 1=1/2 2=0/2
5 begin blocked:2.1@10 6 34
    front 1.1 free             writes 10
          2.1 blocked reads 11 writes 10 waits for record 10
    Cx 10=2
    Cs 11=1
    fuel 1=36 2=34, places 1=1/2 2=1/2
6 begin free:1.2 6 30
    front 1.1 free               writes 10
          2.1 blocked reads 11   writes 10 waits for record 10
          1.2 free    reads 9 11
    Cx 10=2
    Cs 9=1 11=2
    fuel 1=30 2=34, places 1=2/2 2=1/2
7 finish done 0 30
    front 2.1 blocked reads 11   writes 10 nothing ahead conflicts
          1.2 free    reads 9 11
    Cx 10=1
    Cs 9=1 11=2
    fuel 1=30 2=34, places 1=1/2 2=1/2
";
    assert_eq!(view(text), wanted);
}

/// The queue is shown as it is stored: a record in both lists is written only.
#[test]
fn lists_that_overlap() {
    let text = "open 2 1\ngrant 1 40\ngrant 2 40\nbegin 1 reads 7 writes 7\n\
                begin 2 reads 21 7 3 writes 3 7 21\nbegin 1 reads 21 7 30 writes 7 21\n";
    let shown = view(text);
    let last = &shown[shown.find("6 begin").expect("the last line")..];
    let wanted = "\
6 begin blocked:1.2@7 8 28
    front 1.1 free             writes 7
          2.1 blocked          writes 3 7 21 waits for record 7
          1.2 blocked reads 30 writes 7 21   waits for record 7
    Cx 3=1 7=3 21=2
    Cs 30=1
    fuel 1=28 2=32, places 1=2/2 2=1/1
";
    assert_eq!(last, wanted);
}

/// What a Blocked entry waits for is told as it is now, not as it was at its
/// Begin: the lowest record falls away with its holder, Blocked ones count too,
/// and a Deliver changes nothing of it.
#[test]
fn what_each_blocked_request_waits_for() {
    let text = "open 2 1 2\ngrant 1 40\ngrant 2 40\ngrant 3 40\n\
                begin 1 writes 0\nbegin 1 reads 255\n\
                begin 2 awaited 1 reads 0 9 writes 255\nbegin 3 writes 9\n\
                finish 1 1\ndeliver 2 1\nfinish 1 2\n";
    let shown = view(text);
    let after = |start: &str| -> Vec<String> {
        let shown = &shown[shown.find(start).expect("the line is there")..];
        let rows = shown.lines().skip(1).filter(|row| row.contains("blocked"));
        rows.take(2).map(|row| row.trim().to_string()).collect()
    };
    let first = "2.1 blocked awaited 1 due 1 reads 0 9 writes 255 waits for record 0";
    let second = format!("3.1 blocked{:27}writes 9   waits for record 9", "");
    assert!(shown.contains("7 begin blocked:2.1@0 8 32\n"), "{}", shown);
    assert_eq!(after("8 begin blocked:3.1@9 4 36\n"), [first, &second]);
    let first = first.replace("record 0", "record 255");
    assert_eq!(after("9 finish done 0 32\n"), [&first[..], &second]);
    let first = first.replace("due 1", "due 0");
    assert_eq!(
        after("10 deliver blocked:2.1 0 32\n"),
        [&first[..], &second]
    );
    let first = first.replace("waits for record 255", "nothing ahead conflicts");
    let first = format!("front {}", first);
    assert_eq!(after("11 finish done 0 32\n"), [&first[..], &second]);
}

/// What is taken out is gone from the queue, the counters and the places; who
/// waited behind it is Blocked until it asks.
#[test]
fn what_is_taken_out() {
    let text = "open 1 1 1\ngrant 1 10\ngrant 2 10\ngrant 3 10\n\
                begin 1 writes 7\nbegin 2 reads 7\nbegin 3 writes 7\n\
                cancel 3 1\nevict 1 1\nevict 1 1\nscan 2\n";
    let shown = view(text);
    let last = &shown[shown.find("8 cancel").expect("the cancel's line")..];
    let wanted = "\
8 cancel done 1 5
    front 1.1 free            writes 7
          2.1 blocked reads 7          waits for record 7
    Cx 7=1
    Cs 7=1
    fuel 1=6 2=6 3=5, places 1=1/1 2=1/1 3=0/1
9 evict done 0 6
    front 2.1 blocked reads 7 nothing ahead conflicts
    Cs 7=1
    fuel 1=6 2=6 3=5, places 1=0/1 2=1/1 3=0/1
10 evict refused:10 0 6
    front 2.1 blocked reads 7 nothing ahead conflicts
    Cs 7=1
    fuel 1=6 2=6 3=5, places 1=0/1 2=1/1 3=0/1
11 scan free:2.1 3 3
    front 2.1 free reads 7
    Cs 7=1
    fuel 1=6 2=3 3=5, places 1=0/1 2=1/1 3=0/1
";
    assert_eq!(last, wanted);
}

#[test]
fn awaited_answers_and_long_names() {
    let text = "open 0 0 0 0 0 0 0 0 0 3 1\ngrant 10 40\ngrant 4 9\n\
                begin 10\nbegin 10 awaited 12 writes 3\nbegin 11\ndeliver 10 2\n";
    let last = view(text);
    let last = &last[last.find("7 deliver").expect("the last line")..];
    let wanted = "\
7 deliver waiting:10.2 0 34
    front 10.1 free
          10.2 waiting awaited 12 due 11 writes 3
    Cx 3=1
    fuel 4=9 10=34 11=0, places 4=0/0 10=2/3 11=0/1
";
    assert_eq!(last, wanted);
}

#[test]
fn a_refused_open_and_a_refused_file() {
    let wanted = "\
no call answer burnt left
1 open refused:14 0 -
    queue empty
2 pick nothing 0 -
    queue empty
3 file refused:20 0 -
";
    assert_eq!(view("open 65\npick\nraw ff ff ff\n"), wanted);
    assert_eq!(view(""), "no call answer burnt left\n");
}

/// Without the views, what is shown is the proved listing.
#[test]
fn the_lines_are_those_of_the_listing() {
    for (name, events) in batch(6) {
        let proved = listing(&events);
        let (shown, different) = shown(&events, &proved);
        assert_eq!(different, 0, "{}", name);
        let lines = shown.lines().filter(|line| !line.starts_with("    "));
        assert!(lines.eq(proved.lines()), "{}", name);
    }
}

const CALLS: &str = "open 1\ngrant 1 4\nbegin 1\n";
const HEADER: &str = "no call answer burnt left\n";
const OPEN: &str = "1 open ok 0 -\n";
const OPENED: &str = "    queue empty\n    fuel 1=0, places 1=0/1\n";
const GRANT: &str = "2 grant ok 0 4\n";
const GRANTED: &str = "    queue empty\n    fuel 1=4, places 1=0/1\n";
const BEGIN: &str = "3 begin free:1.1 2 2\n";
const BEGUN: &str = "    front 1.1 free\n    fuel 1=2, places 1=1/1\n";

/// A changed listing of `CALLS`, what must be shown, and how many lines differ.
fn check(proved: &[&str], wanted: &[&str], different: usize) {
    let events = file(CALLS);
    let found = shown(&events, &proved.concat());
    assert_eq!(found, (wanted.concat(), different));
}

#[test]
fn the_same_listing() {
    check(
        &[HEADER, OPEN, GRANT, BEGIN],
        &[HEADER, OPEN, OPENED, GRANT, GRANTED, BEGIN, BEGUN],
        0,
    );
}

#[test]
fn a_line_that_differs() {
    check(
        &[HEADER, OPEN, "2 grant ok 0 0\n", BEGIN],
        &[
            HEADER,
            OPEN,
            OPENED,
            "2 grant ok 0 0\n  DIFFERENT: the second program has \"2 grant ok 0 4\\n\"\n",
            GRANTED,
            BEGIN,
            BEGUN,
        ],
        1,
    );
}

#[test]
fn a_header_that_differs() {
    check(
        &["No call answer burnt left\n", OPEN, GRANT, BEGIN],
        &[
            "No call answer burnt left\n",
            "  DIFFERENT: the second program has \"no call answer burnt left\\n\"\n",
            OPEN,
            OPENED,
            GRANT,
            GRANTED,
            BEGIN,
            BEGUN,
        ],
        1,
    );
}

#[test]
fn lines_that_are_missing() {
    check(
        &[HEADER, OPEN],
        &[
            HEADER,
            OPEN,
            OPENED,
            "  DIFFERENT: no line; the second program has \"2 grant ok 0 4\\n\"\n",
            GRANTED,
            "  DIFFERENT: no line; the second program has \"3 begin free:1.1 2 2\\n\"\n",
            BEGUN,
        ],
        2,
    );
}

#[test]
fn lines_too_many_and_a_line_feed_too_few() {
    check(
        &[HEADER, OPEN, GRANT, BEGIN, "4 pick nothing 0 -\n", "5"],
        &[
            HEADER,
            OPEN,
            OPENED,
            GRANT,
            GRANTED,
            BEGIN,
            BEGUN,
            "4 pick nothing 0 -\n  DIFFERENT: the second program has no such line\n",
            "5\n  DIFFERENT: the second program has no such line\n",
        ],
        2,
    );
    check(
        &[HEADER, OPEN, GRANT, BEGIN.trim_end()],
        &[
            HEADER,
            OPEN,
            OPENED,
            GRANT,
            GRANTED,
            BEGIN,
            "  DIFFERENT: the second program has \"3 begin free:1.1 2 2\\n\"\n",
            BEGUN,
        ],
        1,
    );
}
