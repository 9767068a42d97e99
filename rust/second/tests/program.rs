//! The program `second` itself: standard input to standard output.

use std::io::Write;
use std::process::{Command, Output, Stdio};

fn second(file: &[u8]) -> Output {
    let mut child = Command::new(env!("CARGO_BIN_EXE_second"))
        .stdin(Stdio::piped())
        .stdout(Stdio::piped())
        .stderr(Stdio::piped())
        .spawn()
        .expect("the program starts");
    let mut stdin = child.stdin.take().expect("its input is a pipe");
    stdin.write_all(file).expect("it reads its input");
    drop(stdin);
    child.wait_with_output().expect("it ends")
}

/// Any bytes whatever give a listing and exit status 0.
#[test]
fn prints_the_listing_of_any_bytes() {
    let mut good = vec![0x01, 0, 16];
    good.extend_from_slice(&[4; 16]);
    let mut cut = good.clone();
    cut.extend_from_slice(&[0x02, 0]);
    let files = [
        vec![],
        good,
        cut,
        vec![0x01],
        vec![0; 1_000],
        (0..=255).collect(),
        vec![0x07; 65_536],
        vec![0x07; 65_537],
    ];
    for file in files {
        let output = second(&file);
        assert!(output.status.success());
        assert_eq!(output.stdout, second::listing(&file).into_bytes());
        assert_eq!(output.stderr, b"");
    }
}
