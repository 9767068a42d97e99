//! Text to bytes and back.

mod common;

use events::back::to_text;
use events::random::Random;
use events::text::{to_bytes, to_file};

fn bytes(text: &str) -> Vec<u8> {
    match to_bytes(text.as_bytes()) {
        Ok(bytes) => bytes,
        Err(wrong) => panic!("{}: {}", wrong, text),
    }
}

fn wrong(text: &[u8]) -> String {
    match to_bytes(text) {
        Ok(bytes) => panic!("{:?} gave {:?}", text, bytes),
        Err(wrong) => wrong.to_string(),
    }
}

#[test]
fn each_word() {
    let mut open = vec![1, 0, 16, 4, 0, 255];
    open.resize(19, 0);
    assert_eq!(bytes("open 4 0 255"), open);
    assert_eq!(bytes("open"), [&[1, 0, 16][..], &[0; 16]].concat());
    assert_eq!(
        bytes("grant 1 4294967295"),
        [2, 0, 5, 1, 255, 255, 255, 255]
    );
    assert_eq!(bytes("finish 2 258"), [4, 0, 3, 2, 1, 2]);
    assert_eq!(bytes("recheck 3 65535"), [5, 0, 3, 3, 255, 255]);
    assert_eq!(bytes("scan 255"), [6, 0, 1, 255]);
    assert_eq!(bytes("pick"), [7, 0, 0]);
    assert_eq!(bytes("deliver 0 0"), [8, 0, 3, 0, 0, 0]);
    assert_eq!(bytes("evict 16 258"), [9, 0, 3, 16, 1, 2]);
    assert_eq!(bytes("cancel 255 65535"), [11, 0, 3, 255, 255, 255]);
    assert_eq!(bytes("raw 05 00 fF"), [5, 0, 255]);
}

#[test]
fn each_part_of_a_begin() {
    assert_eq!(bytes("begin 1"), [3, 0, 3, 1, 0, 0]);
    assert_eq!(bytes("begin 1 awaited 200"), [3, 0, 3, 1, 200, 0]);
    assert_eq!(bytes("begin 1 writes 9 9"), [3, 0, 5, 1, 0, 0, 9, 9]);
    let full = [3, 0, 6, 1, 1, 2, 3, 5, 10];
    assert_eq!(bytes("begin 1 awaited 1 reads 3 5 writes 10"), full);
    assert_eq!(bytes("begin 1 writes 10 reads 3 5 awaited 1"), full);
}

/// A record may stand in both lists, in any order and several times: the text
/// tells the lists as given, not as they are stored.
#[test]
fn lists_that_overlap() {
    for (text, file) in [
        ("begin 1 reads 7 writes 7\n", &[3, 0, 5, 1, 0, 1, 7, 7][..]),
        (
            "begin 2 reads 9 3 9 writes 9\n",
            &[3, 0, 7, 2, 0, 3, 9, 3, 9, 9],
        ),
        (
            "begin 1 awaited 1 reads 7 21 writes 7 20\n",
            &[3, 0, 7, 1, 1, 2, 7, 21, 7, 20],
        ),
    ] {
        assert_eq!(bytes(text), file, "{}", text);
        assert_eq!(to_text(file), text);
    }
}

#[test]
fn layout_does_not_matter() {
    let text = "# a file\r\n\n  grant\t1   040 # fuel\r\n#\n   \npick#at once";
    assert_eq!(bytes(text), bytes("grant 1 40\npick\n"));
    assert_eq!(bytes(""), []);
}

#[test]
fn back_uses_the_words() {
    let text = "\
open 2 0 2
grant 1 40
begin 1
begin 1 awaited 1 reads 3 5 writes 10
begin 200 awaited 99 writes 7 7
begin 2 reads 3
finish 1 1
recheck 2 1
scan 2
pick
deliver 1 1
evict 1 1
cancel 2 258
open
";
    assert_eq!(to_text(&bytes(text)), text);
}

/// Unknown tag, body cut short, length that does not suit: raw from there on.
#[test]
fn back_writes_the_rest_raw() {
    assert_eq!(
        to_text(&[7, 0, 0, 9, 0, 0, 7, 0, 0]),
        "pick\nraw 09 00 00 07 00 00\n"
    );
    assert_eq!(
        to_text(&[11, 0, 3, 1, 0, 2, 10, 0, 3, 1, 0, 1]),
        "cancel 1 2\nraw 0a 00 03 01 00 01\n"
    );
    assert_eq!(to_text(&[7, 0, 0, 6, 0, 1]), "pick\nraw 06 00 01\n");
    assert_eq!(to_text(&[7, 0, 1, 0]), "raw 07 00 01 00\n");
    assert_eq!(to_text(&[3, 0, 3, 1, 0, 1]), "raw 03 00 03 01 00 01\n");
    assert_eq!(to_text(&[0xAB]), "raw ab\n");
    assert_eq!(to_text(&[]), "");
    let long = format!("raw{}\nraw ff\n", " ff".repeat(32));
    assert_eq!(to_text(&[255; 33]), long);
}

fn assert_round_trip(name: &str, file: &[u8]) {
    let text = to_text(file);
    let again = to_bytes(text.as_bytes());
    assert_eq!(again.as_deref(), Ok(file), "{}: the bytes", name);
    assert_eq!(to_text(&bytes(&text)), text, "{}: the text", name);
}

/// 125 seeds of each kind.
#[test]
fn a_thousand_generated_files_go_there_and_back() {
    let mut files = 0;
    for (name, file) in common::batch(125) {
        assert_round_trip(&name, &file);
        files += 1;
    }
    assert!(files > 1_000, "only {} files", files);
}

#[test]
fn any_bytes_go_there_and_back() {
    let mut random = Random::new(1);
    for length in 0..400 {
        // Small bytes make many a record by chance.
        let mut file = random.bytes(length);
        assert_round_trip("any bytes", &file);
        file.iter_mut().for_each(|byte| *byte %= 12);
        assert_round_trip("small bytes", &file);
    }
}

#[test]
fn wrong_words() {
    let known = "known: open, grant, begin, finish, recheck, scan, pick, deliver, evict, cancel, \
                 raw";
    let unknown = |word: &str| format!("line 1: unknown word \"{}\" ({})", word, known);
    assert_eq!(wrong(b"opne 2 2"), unknown("opne"));
    assert_eq!(wrong(b"Open 2 2"), unknown("Open"));
    assert_eq!(wrong(b"5"), unknown("5"));
    assert_eq!(wrong(b"pick 1"), "line 1: \"1\" is one word too many");
    assert_eq!(wrong(b"scan 1 2"), "line 1: \"2\" is one word too many");
    assert_eq!(wrong(b"evict 1 2 3"), "line 1: \"3\" is one word too many");
}

/// Bytes read as text, and words without end, are told in few and readable
/// characters.
#[test]
fn wrong_words_are_shown_short() {
    let message = wrong(b"\x01\0\x10\xC2\x85pick");
    let start = "line 1: unknown word \"\\u{1}\\0\\u{10}\" (known: ";
    assert!(message.starts_with(start), "{}", message);
    let digits = "9".repeat(1_000);
    let told = format!("line 1: tenant: {}... is not in 0 to 255", "9".repeat(40));
    assert_eq!(wrong(format!("scan {}", digits).as_bytes()), told);
    let forty = "x".repeat(40);
    let told = format!("line 1: tenant: \"{}\" is not a number", forty);
    assert_eq!(wrong(format!("scan {}", forty).as_bytes()), told);
}

#[test]
fn wrong_numbers() {
    assert_eq!(wrong(b"scan x"), "line 1: tenant: \"x\" is not a number");
    assert_eq!(wrong(b"scan -1"), "line 1: tenant: \"-1\" is not a number");
    assert_eq!(wrong(b"scan +1"), "line 1: tenant: \"+1\" is not a number");
    assert_eq!(wrong(b"scan 256"), "line 1: tenant: 256 is not in 0 to 255");
    let amount = "line 1: amount: 4294967296 is not in 0 to 4294967295";
    assert_eq!(wrong(b"grant 1 4294967296"), amount);
    let serial = "line 1: serial: 65536 is not in 0 to 65535";
    for word in ["finish", "recheck", "deliver", "evict", "cancel"] {
        assert_eq!(wrong(format!("{} 1 65536", word).as_bytes()), serial);
    }
    let huge = "99999999999999999999";
    let tenant = format!("line 1: tenant: {} is not in 0 to 255", huge);
    assert_eq!(wrong(format!("scan {}", huge).as_bytes()), tenant);
}

#[test]
fn missing_arguments() {
    assert_eq!(wrong(b"grant"), "line 1: tenant is missing");
    assert_eq!(wrong(b"grant 1"), "line 1: amount is missing");
    assert_eq!(wrong(b"begin"), "line 1: tenant is missing");
    assert_eq!(wrong(b"finish 1"), "line 1: serial is missing");
    assert_eq!(wrong(b"evict"), "line 1: tenant is missing");
    assert_eq!(wrong(b"cancel 1"), "line 1: serial is missing");
    assert_eq!(wrong(b"scan # 1"), "line 1: tenant is missing");
    assert_eq!(wrong(b"raw"), "line 1: a byte is missing");
}

#[test]
fn wrong_shares() {
    let seventeen = format!("open{}", " 1".repeat(17));
    let message = "line 1: 17 shares are too many (at most 16)";
    assert_eq!(wrong(seventeen.as_bytes()), message);
    assert_eq!(
        wrong(b"open 1 256"),
        "line 1: share: 256 is not in 0 to 255"
    );
    assert_eq!(wrong(b"open 1 x"), "line 1: share: \"x\" is not a number");
}

#[test]
fn wrong_begins() {
    let not_part = |word: &str| format!("line 1: \"{}\" is not awaited, reads or writes", word);
    assert_eq!(wrong(b"begin 1 5"), not_part("5"));
    assert_eq!(wrong(b"begin 1 awaited 1 5"), not_part("5"));
    assert_eq!(wrong(b"begin 1 read 5"), not_part("read"));
    assert_eq!(wrong(b"begin 1 awaited"), "line 1: awaited is missing");
    let missing = "line 1: a record is missing after reads";
    assert_eq!(wrong(b"begin 1 reads"), missing);
    assert_eq!(wrong(b"begin 1 reads writes 1"), missing);
    assert_eq!(
        wrong(b"begin 1 reads 1 reads 2"),
        "line 1: reads is given twice"
    );
    assert_eq!(
        wrong(b"begin 1 reads 1 x"),
        "line 1: record: \"x\" is not a number"
    );
    assert_eq!(
        wrong(b"begin 1 writes 256"),
        "line 1: record: 256 is not in 0 to 255"
    );
}

/// The number of reads is one byte of the record, the length of the body two.
#[test]
fn lists_that_no_record_holds() {
    let reads = |count| format!("begin 1 reads{}", " 7".repeat(count));
    assert_eq!(bytes(&reads(255)).len(), 3 + 3 + 255);
    let many = "line 1: 256 reads are too many (at most 255 fit a record)";
    assert_eq!(wrong(reads(256).as_bytes()), many);
    let writes = |count| format!("begin 1 writes{}", " 7".repeat(count));
    assert_eq!(bytes(&writes(65_532)).len(), 3 + 65_535);
    let long = "line 1: a body of 65536 bytes is too long (at most 65535)";
    assert_eq!(wrong(writes(65_533).as_bytes()), long);
}

#[test]
fn wrong_raw_bytes() {
    for word in ["5", "005", "0x", "+5", "gg", "é"] {
        let message = format!("line 1: \"{}\" is not a byte of two hex digits", word);
        assert_eq!(wrong(format!("raw 00 {}", word).as_bytes()), message);
    }
}

#[test]
fn the_first_wrong_line_is_told() {
    let text = b"open 2 2\n\n# scan x\npick\nscan x\nscan y\n";
    assert_eq!(wrong(text), "line 5: tenant: \"x\" is not a number");
    assert_eq!(wrong(b"pick\r\nscan\r\n"), "line 2: tenant is missing");
}

/// A byte-order mark before the text is skipped; anywhere else it is part of a
/// word. It has three bytes, which count where a byte is told.
#[test]
fn a_byte_order_mark() {
    assert_eq!(bytes("\u{FEFF}pick\npick"), bytes("pick\npick"));
    assert_eq!(bytes("\u{FEFF}"), []);
    assert_eq!(bytes("\u{FEFF}\n# two\npick"), [7, 0, 0]);
    let message = "line 2: tenant is missing";
    assert_eq!(wrong("\u{FEFF}pick\nscan".as_bytes()), message);
    let message = "line 1: byte 9 (hex ff) is not UTF-8 text";
    assert_eq!(wrong(b"\xEF\xBB\xBFpick \xFF"), message);
    for text in [
        "\u{FEFF}\u{FEFF}pick",
        "pick\n\u{FEFF}pick",
        " \u{FEFF}pick",
    ] {
        assert!(to_bytes(text.as_bytes()).is_err(), "{:?}", text);
    }
}

/// 65,536 bytes are a file, one more is told at its line, whatever follows.
#[test]
fn events_that_fill_a_file() {
    let full = format!("{}raw 07 00 00 ff\n# full\n", "pick\n".repeat(21_844));
    assert_eq!(to_file(full.as_bytes()).map(|file| file.len()), Ok(65_536));
    let above = format!("{}raw ff\npick\nscan x\n", full);
    let message = "line 21847: the events up to here take 65537 bytes \
                   (at most 65536 fit an event file)";
    let told = to_file(above.as_bytes()).map_err(|wrong| wrong.to_string());
    assert_eq!(told, Err(String::from(message)));
    assert_eq!(
        wrong(above.as_bytes()),
        "line 21849: tenant: \"x\" is not a number"
    );
}

#[test]
fn text_that_is_no_utf_8() {
    let message = "line 3: byte 6 (hex ff) is not UTF-8 text";
    assert_eq!(wrong(b"pick\npick\npick \xFF\n"), message);
    let message = "line 1: byte 3 (hex c3) is not UTF-8 text";
    assert_eq!(wrong(b"# \xC3"), message);
    assert_eq!(bytes("# é is fine\npick"), [7, 0, 0]);
}
