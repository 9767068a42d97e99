//! The text that drives a block, and the driver on a machine that only notes
//! what reaches it.

use events::blocklines::{block_line, held_line, parse, run, Line, Machine, Said, Trouble};
use events::text::Call;
use second::{Event, Held};
use std::io::{self, Write};

fn parsed(line: &str) -> Line {
    let line = parse("", line.as_bytes()).expect("it is right");
    line.expect("it has words")
}

fn wrong(line: &str) -> String {
    parse("", line.as_bytes()).expect_err("it is wrong")
}

#[test]
fn blocks() {
    let bytes = vec![0x11, 0x00, 0xAB, 0xCD];
    for text in [
        "block 1100abcd",
        "block 11 00 AB Cd  # a comment",
        "\tblock 1100 abcD\r\n",
    ] {
        assert_eq!(parsed(text), Line::Block(bytes.clone()), "{:?}", text);
    }
    assert_eq!(parsed("block"), Line::Block(Vec::new()));
    assert_eq!(parsed("block # none\n"), Line::Block(Vec::new()));
    assert_eq!(block_line(&bytes), "block 1100abcd");
    assert_eq!(block_line(&[]), "block");
    for text in [
        "block 1",
        "block 11 0",
        "block 0x11",
        "block 1g",
        "block é1",
    ] {
        assert!(
            wrong(text).ends_with(" is not pairs of hex digits"),
            "{}",
            text
        );
    }
    // A pair is not parted by a blank.
    assert_eq!(wrong("block 1 1"), "\"1\" is not pairs of hex digits");
    let long = format!("block {}g", "0".repeat(4_351));
    let message = format!("\"{}...\" is not pairs of hex digits", "0".repeat(40));
    assert_eq!(wrong(&long), message);
}

#[test]
fn calls() {
    let plain = |event| Line::Call(Call::Plain(event));
    assert_eq!(parsed("pick"), plain(Event::Pick));
    let grant = Event::Grant {
        tenant: 1,
        amount: 40,
    };
    assert_eq!(parsed("grant 1 40 # fuel"), plain(grant));
    let (tenant, serial) = (17, 65_535);
    let evict = Event::Evict { tenant, serial };
    assert_eq!(parsed("evict 17 65535"), plain(evict));
    let cancel = Event::Cancel { tenant, serial };
    assert_eq!(parsed("\tcancel 17 65535 # too late"), plain(cancel));
    let begin = Call::Begin {
        tenant: 200,
        awaited: 1,
        reads: vec![5, 3],
        writes: vec![10],
    };
    let text = "begin 200 writes 10 awaited 1 reads 5 3";
    assert_eq!(parsed(text), Line::Call(begin));
    let mut shares = vec![2, 2];
    let exactly = Call::Open {
        shares: shares.clone(),
    };
    assert_eq!(parsed("open exactly 2 2"), Line::Call(exactly));
    shares.resize(16, 0);
    assert_eq!(parsed("open 2 2"), Line::Call(Call::Open { shares }));
    let none = Call::Open { shares: Vec::new() };
    assert_eq!(parsed("open exactly"), Line::Call(none));
}

/// More than a record of an event file holds.
#[test]
fn lists_of_any_length() {
    let text = format!("begin 1 reads{}", " 7".repeat(300));
    match parsed(&text) {
        Line::Call(Call::Begin { reads, .. }) => assert_eq!(reads, vec![7; 300]),
        line => panic!("{:?}", line),
    }
    match parsed(&format!("open exactly{}", " 0".repeat(17))) {
        Line::Call(Call::Open { shares }) => assert_eq!(shares, vec![0; 17]),
        line => panic!("{:?}", line),
    }
}

#[test]
fn wrong_lines() {
    let known = "(known: block, held, show, explain, open, grant, begin, finish, recheck, scan, \
                 pick, deliver, evict, cancel)";
    assert_eq!(wrong("raw 05"), format!("unknown word \"raw\" {}", known));
    assert_eq!(wrong("held 1"), "\"1\" is one word too many");
    assert_eq!(wrong("show all"), "\"all\" is one word too many");
    assert_eq!(wrong("explain it"), "\"it\" is one word too many");
    assert_eq!(wrong("scan 256"), "tenant: 256 is not in 0 to 255");
    assert_eq!(wrong("evict 1"), "serial is missing");
    assert_eq!(wrong("cancel 1 2 3"), "\"3\" is one word too many");
    assert_eq!(wrong("open exactly 1 x"), "share: \"x\" is not a number");
    assert_eq!(parse("", b"  # nothing"), Ok(None));
    assert_eq!(parse("", b"\n"), Ok(None));
    assert!(parse("", b"pick \xFE").is_err());
}

#[test]
fn held_is_a_line_of_its_own() {
    assert_eq!(parsed("held"), Line::Held);
    assert_eq!(parsed("\theld # how many\r\n"), Line::Held);
    let held = Held {
        written: 256,
        read: 0,
        either: 256,
    };
    assert_eq!(held_line(Ok(held)), "written 256 read 0 either 256");
    assert_eq!(held_line(Err(15)), "refused:15 0");
}

/// Notes what reaches it, and answers each call with its name. It holds as many
/// records as its block has bytes, if there are any.
#[derive(Default)]
struct Notes {
    block: Vec<u8>,
    calls: u32,
}

impl Machine for Notes {
    fn take(&mut self, block: &[u8]) {
        self.block = block.to_vec();
    }

    fn call(&mut self, call: Event<'_>) -> Said {
        self.calls += 1;
        Said {
            answer: String::from(call.call()),
            burnt: self.calls,
        }
    }

    fn held(&self) -> Result<Held, u8> {
        match self.block.len() as u16 {
            0 => Err(15),
            bytes => Ok(Held {
                written: bytes,
                read: 0,
                either: bytes,
            }),
        }
    }

    fn block(&self) -> &[u8] {
        &self.block
    }

    fn explain(&self) -> String {
        format!("{} bytes\n", self.block.len())
    }
}

fn ran(text: &[u8]) -> (String, Result<(), Trouble>) {
    let mut out = Vec::new();
    let ended = run(text, &mut Notes::default(), &mut out);
    (String::from_utf8(out).expect("it is text"), ended)
}

#[test]
fn the_driver_writes_what_the_lines_give() {
    let text = b"\xEF\xBB\xBFexplain\n\nblock 0aFF\n# no line\nshow\npick # first\nheld\nscan 3\n\
                 block\nheld\nshow\nexplain";
    let (out, ended) = ran(text);
    assert!(ended.is_ok());
    assert_eq!(
        out,
        "2176 bytes\nblock 0aff\npick 1\nwritten 2 read 0 either 2\nscan 2\n\
         refused:15 0\nblock\n0 bytes\n"
    );
    let zeros = ran(b"show\n").0;
    assert_eq!(zeros, format!("block {}\n", "00".repeat(2_176)));
    assert_eq!(ran(b"").0, "");
}

#[test]
fn the_driver_stops_at_a_wrong_line() {
    let (out, ended) = ran(b"pick\n\nshout\npick\n");
    assert_eq!(out, "pick 1\n");
    match ended {
        Err(Trouble::Wrong(line)) => {
            assert!(line
                .to_string()
                .starts_with("line 3: unknown word \"shout\""));
        }
        other => panic!("{:?}", other),
    }
    // The mark of a text stands at its beginning alone.
    let (out, ended) = ran(b"pick\n\xEF\xBB\xBFpick\n");
    assert_eq!(out, "pick 1\n");
    assert!(matches!(ended, Err(Trouble::Wrong(line)) if line.line == 2));
}

/// What the lines before the wrong one gave is not only written but sent on.
#[test]
fn the_driver_flushes() {
    #[derive(Default)]
    struct Held {
        held: Vec<u8>,
        sent: Vec<u8>,
    }
    impl Write for Held {
        fn write(&mut self, bytes: &[u8]) -> io::Result<usize> {
            self.held.extend_from_slice(bytes);
            Ok(bytes.len())
        }
        fn flush(&mut self) -> io::Result<()> {
            self.sent.append(&mut self.held);
            Ok(())
        }
    }
    for text in ["pick\nshout\n", "pick\n"] {
        let mut out = Held::default();
        let ended = run(text.as_bytes(), &mut Notes::default(), &mut out);
        assert_eq!(ended.is_ok(), text == "pick\n");
        assert_eq!(out.sent, b"pick 1\n");
    }
}
