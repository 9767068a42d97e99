//! What is told of an input that is neither text nor an event file.

mod common;

use common::run;
use events::hint::hint;
use events::kinds::{generate, KINDS};
use std::fs;
use std::path::Path;

fn utf_16(text: &str, order: fn(u16) -> [u8; 2]) -> Vec<u8> {
    text.encode_utf16().flat_map(order).collect()
}

#[test]
fn text_that_is_not_utf_8() {
    let text = "open 2 2\ngrant 1 40\n";
    let marked = format!("\u{FEFF}{}", text);
    let is = "hint: this looks like UTF-16 text, and the text of calls is UTF-8";
    for (input, how) in [
        (utf_16(&marked, u16::to_le_bytes), "UTF-16"),
        (utf_16(&marked, u16::to_be_bytes), "UTF-16"),
        (utf_16(text, u16::to_le_bytes), "UTF-16LE"),
        (utf_16(text, u16::to_be_bytes), "UTF-16BE"),
    ] {
        let wanted = format!("{} (iconv -f {} -t UTF-8)", is, how);
        assert_eq!(hint(&input), Some(wanted));
    }
}

/// The first bytes of files as their programs write them.
#[test]
fn packed_files_and_pictures() {
    let packed = "hint: this looks like a packed file: unpack it first";
    let picture = "hint: this looks like a picture";
    for (input, wanted) in [
        (
            &b"\x1f\x8b\x08\x00\x00\x00\x00\x00\x00\x03"[..],
            format!("{} (gunzip)", packed),
        ),
        (b"PK\x03\x04\x14\x00\x00\x00", format!("{} (unzip)", packed)),
        (b"BZh91AY&SY", format!("{} (bunzip2)", packed)),
        (b"\xfd7zXZ\x00\x00\x04", format!("{} (unxz)", packed)),
        (b"\x28\xb5\x2f\xfd\x04\x00", format!("{} (unzstd)", packed)),
        (b"\x89PNG\r\n\x1a\n\x00\x00", format!("{} (PNG)", picture)),
        (
            b"\xff\xd8\xff\xe0\x00\x10JFIF",
            format!("{} (JPEG)", picture),
        ),
        (b"GIF89a\x01\x00", format!("{} (GIF)", picture)),
        (b"II*\x00\x08\x00", format!("{} (TIFF)", picture)),
        (b"MM\x00*\x00\x00", format!("{} (TIFF)", picture)),
        (
            b"RIFF\x24\x00\x00\x00WEBPVP8 ",
            format!("{} (WebP)", picture),
        ),
        (
            b"%PDF-1.7\n",
            "hint: this looks like a document (PDF)".to_string(),
        ),
    ] {
        assert_eq!(hint(input), Some(wanted));
    }
}

/// Of what may be run nothing is told: the examples, generated files, their
/// text, and what is broken in no such way.
#[test]
fn nothing_of_what_may_be_run() {
    for (name, kind) in KINDS {
        for seed in 0..20 {
            assert_eq!(hint(&generate(seed, kind)), None, "{} {}", name, seed);
        }
    }
    let examples = Path::new(env!("CARGO_MANIFEST_DIR")).join("../../examples");
    let mut read = 0;
    for entry in fs::read_dir(examples).expect("the examples") {
        let path = entry.expect("an entry").path();
        if path.is_file() {
            assert_eq!(hint(&fs::read(&path).expect("a text")), None, "{:?}", path);
            read += 1;
        }
    }
    assert!(read > 0);
    for input in [
        &b""[..],
        b"\0",
        b"o\0",
        b"\0o",
        b"\t\0\x03\x01\0\x01",
        b"\xef\xbb\xbfpick",
        b"RIFF",
        b"\xff",
        b"PK",
    ] {
        assert_eq!(hint(input), None, "{:?}", input);
    }
}

/// It stands beside the listing or the wrong line, and changes neither.
#[test]
fn eventtext_says_it_beside() {
    let gzip = b"\x1f\x8b\x08\x00";
    let said = b"hint: this looks like a packed file: unpack it first (gunzip)\n";
    let output = run(env!("CARGO_BIN_EXE_eventtext"), &["--either"], gzip);
    assert_eq!(output.status.code(), Some(0));
    assert_eq!(
        (&output.stdout[..], &output.stderr[..]),
        (&gzip[..], &said[..])
    );
    let output = run(env!("CARGO_BIN_EXE_eventtext"), &["--either"], b"GIF89a");
    assert_eq!(output.status.code(), Some(1));
    assert_eq!(output.stdout, b"");
    let words = String::from_utf8_lossy(&output.stderr).into_owned();
    let (hint, wrong) = words.split_once('\n').expect("two lines");
    assert_eq!(hint, "hint: this looks like a picture (GIF)");
    assert!(wrong.starts_with("line 1: unknown word"), "{}", wrong);
    // What is turned back is taken as it is.
    let output = run(env!("CARGO_BIN_EXE_eventtext"), &["--back"], gzip);
    assert_eq!((output.status.code(), output.stderr), (Some(0), Vec::new()));
}
