//! The programs `eventgen`, `eventtext` and `eventshow` themselves.

mod common;

use common::run;
use events::kinds::{generate, KINDS};
use events::long::{long, LONG};
use std::fs;
use std::path::PathBuf;
use std::process::{Command, Output, Stdio};

fn eventgen(arguments: &[&str]) -> Output {
    run(env!("CARGO_BIN_EXE_eventgen"), arguments, b"")
}

fn eventtext(arguments: &[&str], input: &[u8]) -> Output {
    run(env!("CARGO_BIN_EXE_eventtext"), arguments, input)
}

/// Exit status 1, nothing on standard output; the message is given back.
fn failed(output: Output) -> String {
    assert_eq!(output.status.code(), Some(1));
    assert_eq!(output.stdout, b"");
    String::from_utf8(output.stderr).expect("the message is text")
}

fn succeeded(output: Output) -> Vec<u8> {
    assert_eq!(output.status.code(), Some(0));
    assert_eq!(output.stderr, b"");
    output.stdout
}

#[test]
fn eventgen_writes_the_file_of_a_seed() {
    for (name, kind) in KINDS {
        for seed in ["0", "6", "18446744073709551615"] {
            let number = seed.parse().expect("a seed");
            let file = generate(number, kind);
            assert_eq!(
                succeeded(eventgen(&[seed, name])),
                file,
                "{} {}",
                seed,
                name
            );
        }
    }
    for (name, _) in LONG {
        assert_eq!(Some(succeeded(eventgen(&["6", name]))), long(name, 6));
    }
}

#[test]
fn eventgen_names_its_kinds() {
    let names = "mixed\ndeep\nscarce\nremote\nrefusals\nworst\ndamaged\nboundary\nearly\noverlap\n\
                 clash\nstuck\n";
    assert_eq!(succeeded(eventgen(&["--kinds"])), names.as_bytes());
}

#[test]
fn eventgen_names_the_kinds_when_it_is_called_wrongly() {
    let kinds = "KIND is one of: mixed, deep, scarce, remote, refusals, worst, damaged, boundary, \
                 early, overlap, clash, stuck; to measure with: long-scans, long-queues, \
                 long-picks, long-hot\n";
    let wrong: [(&[&str], &str); 7] = [
        (&[], "usage: eventgen SEED KIND, or eventgen --kinds\n"),
        (&["1"], "usage: eventgen SEED KIND, or eventgen --kinds\n"),
        (
            &["1", "mixed", "2"],
            "usage: eventgen SEED KIND, or eventgen --kinds\n",
        ),
        (&["1", "mexed"], "unknown kind \"mexed\""),
        (&["one", "mixed"], "the seed \"one\" is not a number"),
        (&["+1", "mixed"], "the seed \"+1\" is not a number"),
        (
            &["18446744073709551616", "mixed"],
            "the seed \"18446744073709551616\"",
        ),
    ];
    for (arguments, what) in wrong {
        let message = failed(eventgen(arguments));
        assert!(message.contains(what), "{}", message);
        assert!(message.ends_with(kinds), "{}", message);
    }
}

#[test]
fn eventtext_goes_there_and_back() {
    let text = b"open 2 2\ngrant 1 40\nbegin 1 awaited 1 reads 3 5 writes 10\n\
                 begin 1 reads 10 3 10 writes 3 10\ncancel 1 2\nevict 1 1\nraw ff\n";
    let bytes = succeeded(eventtext(&[], text));
    assert_eq!(bytes.len(), 19 + 8 + 9 + 11 + 6 + 6 + 1);
    assert_eq!(succeeded(eventtext(&["--back"], &bytes)), text);
    assert_eq!(succeeded(eventtext(&["--back"], b"")), b"");
    assert_eq!(succeeded(eventtext(&[], b"")), b"");
}

#[test]
fn eventtext_writes_nothing_for_a_wrong_line() {
    let message = failed(eventtext(&[], b"open 2 2\npick\nscan 300\npick\n"));
    assert_eq!(message, "line 3: tenant: 300 is not in 0 to 255\n");
    let message = failed(eventtext(&[], b"open 2 2\n\xFE\n"));
    assert_eq!(message, "line 2: byte 1 (hex fe) is not UTF-8 text\n");
}

/// A file is text by how it begins, and an event file if it is empty.
#[test]
fn eventtext_takes_either() {
    let either = |input: &[u8]| succeeded(eventtext(&["--either"], input));
    let open = succeeded(eventtext(&[], b"open 2 2"));
    for text in [
        "open 2 2",
        "# two\nopen 2 2\n",
        "\n\topen 2 2",
        "\r\n open 2 2",
        "\u{FEFF}open 2 2",
    ] {
        assert_eq!(either(text.as_bytes()), open, "{:?}", text);
    }
    assert_eq!(either(b"# nothing\n"), b"");
    assert_eq!(either(b"\xEF\xBB\xBF"), b"");
    // A tab begins text, but for the head of an Evict.
    assert_eq!(either(b"\tpick"), [7, 0, 0]);
    assert_eq!(either(b"\t"), b"");
    let files: [&[u8]; 12] = [
        b"",
        &open,
        b"\x01",
        b"\x08",
        b"\x09\0",
        b"\x09\0\x03\x01\0\x01",
        b"\x0B",
        b"\x0B\0\x03\x01\0\x01",
        b"\0",
        b"\x7F",
        b"\xFFpick\n",
        b"\xEF\xBBpick\n",
    ];
    for file in files {
        assert_eq!(either(file), file, "{:?}", file);
    }
    let message = failed(eventtext(&["--either"], b"open 2 2\nraw 100\n"));
    assert_eq!(message, "line 2: \"100\" is not a byte of two hex digits\n");
}

/// With `--text` an event file is wrong text; without a flag it is too.
#[test]
fn eventtext_takes_text_alone() {
    let text = b"open 2 2\npick\n";
    let bytes = succeeded(eventtext(&[], text));
    assert_eq!(succeeded(eventtext(&["--text"], text)), bytes);
    for arguments in [&["--text"][..], &[]] {
        let message = failed(eventtext(arguments, &bytes));
        assert!(message.starts_with("line 1: unknown word "), "{}", message);
        let marked = [b"\xEF\xBB\xBF", &text[..]].concat();
        assert_eq!(succeeded(eventtext(arguments, &marked)), bytes);
    }
}

/// What is to be run must fit an event file. Without a flag such text is
/// written as it is, and an event file is never held back.
#[test]
fn eventtext_tells_the_line_at_which_a_file_is_full() {
    // 16 + 3 bytes, 21,839 times 3, and one: 65,537.
    let text = format!("open 2 2\n\n{}raw ff\npick\n", "pick\n".repeat(21_839));
    let message = "line 21842: the events up to here take 65537 bytes \
                   (at most 65536 fit an event file)\n";
    for flag in ["--text", "--either"] {
        assert_eq!(failed(eventtext(&[flag], text.as_bytes())), message);
    }
    let file = succeeded(eventtext(&[], text.as_bytes()));
    assert_eq!(file.len(), 65_540);
    assert_eq!(succeeded(eventtext(&["--either"], &file)), file);
}

#[test]
fn eventtext_knows_three_flags() {
    let wrong: [&[&str]; 4] = [
        &["--forth"],
        &["--back", "--either"],
        &["--text", "--either"],
        &["file"],
    ];
    for arguments in wrong {
        assert_eq!(
            failed(eventtext(arguments, b"")),
            "usage: eventtext [--text | --either | --back]\n"
        );
    }
}

/// Two files in a folder of their own, and `eventshow` to be run on them.
fn eventshow_on(folder: &str, events: &[u8], listing: &str) -> Command {
    let folder = PathBuf::from(env!("CARGO_TARGET_TMPDIR")).join(folder);
    fs::create_dir_all(&folder).expect("a folder for this test");
    let (events_file, listing_file) = (folder.join("events"), folder.join("listing"));
    fs::write(&events_file, events).expect("a file");
    fs::write(&listing_file, listing).expect("a file");
    let mut command = Command::new(env!("CARGO_BIN_EXE_eventshow"));
    command.args([events_file, listing_file]);
    command
}

fn eventshow(folder: &str, events: &[u8], listing: &str) -> Output {
    let mut command = eventshow_on(folder, events, listing);
    command.output().expect("the program starts")
}

#[test]
fn eventshow_shows_the_state_below_each_line() {
    let events = succeeded(eventtext(&[], b"open\npick\n"));
    let shown = succeeded(eventshow("same", &events, &second::listing(&events)));
    let wanted = "no call answer burnt left\n1 open ok 0 -\n    queue empty\n\
                  2 pick nothing 0 -\n    queue empty\n";
    assert_eq!(String::from_utf8_lossy(&shown), wanted);
}

#[test]
fn eventshow_ends_with_1_where_the_programs_differ() {
    let events = succeeded(eventtext(&[], b"open\npick\n"));
    let changed = second::listing(&events).replace("nothing", "free:1.1");
    let output = eventshow("changed", &events, &changed);
    assert_eq!(output.status.code(), Some(1));
    let shown = String::from_utf8_lossy(&output.stdout).into_owned();
    let mark =
        "\n2 pick free:1.1 0 -\n  DIFFERENT: the second program has \"2 pick nothing 0 -\\n\"\n";
    assert!(shown.contains(mark), "{}", shown);
    assert_eq!(
        String::from_utf8_lossy(&output.stderr),
        "the second program differs from the proved listing in 1 line(s), marked DIFFERENT\n"
    );
}

#[test]
fn eventshow_tells_an_output_that_cannot_be_written() {
    let events = succeeded(eventtext(&[], b"open\npick\n"));
    let full = fs::OpenOptions::new().write(true).open("/dev/full");
    let output = eventshow_on("full", &events, &second::listing(&events))
        .stdout(full.expect("a device that is always full"))
        .output()
        .expect("the program starts");
    let message = failed(output);
    let start = "eventshow: the output could not be written: ";
    assert!(message.starts_with(start), "{}", message);
    assert_eq!(message.lines().count(), 1, "{}", message);
}

/// The output is far more than a pipe holds, so the program is still writing
/// when its reader goes.
#[test]
fn eventshow_is_quiet_where_nobody_reads() {
    let events = long("long-picks", 1).expect("a long file");
    let mut child = eventshow_on("unread", &events, &second::listing(&events))
        .stdout(Stdio::piped())
        .stderr(Stdio::piped())
        .spawn()
        .expect("the program starts");
    drop(child.stdout.take());
    let output = child.wait_with_output().expect("it ends");
    assert_eq!(String::from_utf8_lossy(&output.stderr), "");
    assert_eq!(output.status.code(), Some(141));
}

#[test]
fn eventshow_needs_two_files() {
    let program = env!("CARGO_BIN_EXE_eventshow");
    assert_eq!(
        failed(run(program, &["one"], b"")),
        "usage: eventshow EVENTS LISTING\n"
    );
    let message = failed(run(program, &["no-such-file", "none"], b""));
    assert!(
        message.starts_with("eventshow: no-such-file: "),
        "{}",
        message
    );
}
