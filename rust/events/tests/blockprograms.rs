//! The programs `blockgen` and `blocksecond` themselves.

mod common;

use common::run;
use events::blockkinds::{write_cases, BLOCK_KINDS, CASES};
use std::fs;
use std::path::PathBuf;
use std::process::Output;

fn blockgen(arguments: &[&str]) -> Output {
    run(env!("CARGO_BIN_EXE_blockgen"), arguments, b"")
}

fn blocksecond(arguments: &[&str], input: &[u8]) -> Output {
    run(env!("CARGO_BIN_EXE_blocksecond"), arguments, input)
}

fn succeeded(output: Output) -> Vec<u8> {
    assert_eq!(String::from_utf8_lossy(&output.stderr), "");
    assert_eq!(output.status.code(), Some(0));
    output.stdout
}

/// Exit status 1; what was written before, and the message.
fn failed(output: Output) -> (String, String) {
    assert_eq!(output.status.code(), Some(1));
    let text = |bytes| String::from_utf8(bytes).expect("it is text");
    (text(output.stdout), text(output.stderr))
}

#[test]
fn blockgen_writes_the_cases_of_a_seed() {
    let text = |seed, kind, count| {
        let mut out = Vec::new();
        write_cases(seed, kind, count, &mut out).expect("a list takes it");
        out
    };
    for (name, kind) in BLOCK_KINDS {
        assert_eq!(succeeded(blockgen(&["3", name])), text(3, kind, CASES));
        let most = u64::MAX.to_string();
        let five = succeeded(blockgen(&[&most, name, "5"]));
        assert_eq!(five, text(u64::MAX, kind, 5));
    }
}

#[test]
fn blockgen_names_its_kinds() {
    let names = "reached\ncomposed\nfull\nrefusals\nbroken\nbytes\nunused\nlengths\nrandom\nopen\n\
                 clash\nstuck\n";
    assert_eq!(succeeded(blockgen(&["--kinds"])), names.as_bytes());
    let usage = "usage: blockgen SEED KIND [COUNT], or blockgen --kinds\n";
    let wrong: [(&[&str], &str); 5] = [
        (&[], usage),
        (&["1"], usage),
        (&["1", "whole"], "unknown kind \"whole\"\n"),
        (&["one", "full"], "the seed \"one\" is not a number"),
        (&["1", "full", "-1"], "the count \"-1\" is not a number"),
    ];
    for (arguments, what) in wrong {
        let (out, message) = failed(blockgen(arguments));
        assert_eq!(out, "");
        assert!(message.contains(what), "{}", message);
        assert!(message.contains("KIND is one of: reached, "), "{}", message);
    }
}

#[test]
fn blocksecond_answers_each_line() {
    let text = b"pick\nopen 2 2\ngrant 1 40\nbegin 1 writes 10\nexplain\nblock 11\nshow\nopen\n";
    let out = succeeded(blocksecond(&[], text));
    assert_eq!(
        String::from_utf8_lossy(&out),
        "refused:15 0\nok 0\nok 0\nfree:1.1 4\n\
         sound\n    front 1.1 free writes 10\n    Cx 10=1\n    fuel 1=36 2=0, places 1=1/2 2=0/2\n\
         block 11\nrefused:15 0\n"
    );
}

/// Item 7's two calls: what is taken out is held no more, and its place is free.
#[test]
fn blocksecond_takes_entries_out() {
    let text = b"open 1 1\ngrant 1 9\ngrant 2 9\nbegin 1 writes 10\nbegin 2 reads 8 writes 10\n\
                 cancel 1 1\ncancel 2 1\nheld\nevict 1 1\nheld\nevict 1 1\ncancel 2 1\nevict 17 1\n\
                 explain\nbegin 1 writes 10\nblock 11\nevict 1 1\ncancel 1 1\n";
    let out = String::from_utf8(succeeded(blocksecond(&[], text))).expect("it is text");
    assert_eq!(
        out,
        "ok 0\nok 0\nok 0\nfree:1.1 4\nblocked:2.1@10 6\n\
         refused:11 1\ndone 1\nwritten 1 read 0 either 1\ndone 0\nwritten 0 read 0 either 0\n\
         refused:10 0\nrefused:10 1\nrefused:1 0\n\
         sound\n    queue empty\n    fuel 1=4 2=1, places 1=0/1 2=0/1\n\
         free:1.2 4\nrefused:15 0\nrefused:15 0\n"
    );
}

/// `held` tells, and changes nothing: the block is shown before and after it.
#[test]
fn blocksecond_tells_what_is_held() {
    let text = b"held\nopen 2 2\nheld\ngrant 1 40\ngrant 2 40\nbegin 1 reads 9 writes 10 20\n\
                 begin 2 reads 8 20 writes 9\nshow\nheld\nshow\nblock 11\nheld\nshow\n";
    let out = String::from_utf8(succeeded(blocksecond(&[], text))).expect("it is text");
    let lines: Vec<&str> = out.lines().collect();
    assert_eq!(
        lines[..7],
        [
            "refused:15 0",
            "ok 0",
            "written 0 read 0 either 0",
            "ok 0",
            "ok 0",
            "free:1.1 8",
            "blocked:2.1@9 8",
        ]
    );
    assert_eq!(lines[8], "written 3 read 3 either 4");
    assert!(lines[7].starts_with("block 110010"));
    assert_eq!(lines[7], lines[9]);
    assert_eq!(lines[10..], ["refused:15 0", "block 11"]);
}

#[test]
fn blocksecond_says_why_a_block_is_not_sound() {
    let out = succeeded(blocksecond(&[], b"explain\nblock\nexplain\n"));
    assert_eq!(
        String::from_utf8_lossy(&out),
        "not sound: byte 0 is 00, not 11: it is part of the head of field 11\n\
         \x20   the clause: heads, lengths and unused bytes are as above\n\
         not sound: the block has 0 bytes, not 2176\n\
         \x20   the clause: heads, lengths and unused bytes are as above\n"
    );
}

#[test]
fn blocksecond_stops_at_a_wrong_line() {
    let (out, message) = failed(blocksecond(&[], b"open\n\nblock 1\nshow\n"));
    assert_eq!(out, "ok 0\n");
    assert_eq!(message, "line 3: \"1\" is not pairs of hex digits\n");
}

#[test]
fn blocksecond_reads_a_file() {
    let folder = PathBuf::from(env!("CARGO_TARGET_TMPDIR"));
    let file = folder.join("block-lines");
    let text = succeeded(blockgen(&["1", "composed", "10"]));
    fs::write(&file, &text).expect("a file");
    let name = file.to_str().expect("a name in UTF-8");
    let out = succeeded(blocksecond(&[name], b""));
    assert_eq!(out, succeeded(blocksecond(&[], &text)));
    let lines = out.split(|&byte| byte == b'\n').count();
    assert_eq!(lines, 3 * 10 + 1);
    let (_, message) = failed(blocksecond(&["no-such-file"], b""));
    assert!(message.starts_with("blocksecond: no-such-file: "));
    for arguments in [&["one", "two"][..], &["--explain"]] {
        let (_, message) = failed(blocksecond(arguments, b""));
        assert_eq!(message, "usage: blocksecond [FILE]\n");
    }
}
