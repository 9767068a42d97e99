//! The event file: its refusals 20 to 24, their order, and the lines of the
//! listing. Bytes are written out by hand here.

use second::listing;

const HEADER: &str = "no call answer burnt left\n";

/// An Open with shares 2 and 2.
fn open() -> Vec<u8> {
    let mut record = vec![0x01, 0, 16, 2, 2];
    record.resize(19, 0);
    record
}

/// The listing of an Open and these bytes, without the header and line 1.
fn after_open(bytes: &[u8]) -> String {
    let mut file = open();
    file.extend_from_slice(bytes);
    let text = listing(&file);
    let start = format!("{}1 open ok 0 -\n", HEADER);
    assert!(text.starts_with(&start), "{}", text);
    text[start.len()..].to_string()
}

fn alone(bytes: &[u8]) -> String {
    let text = listing(bytes);
    assert!(text.starts_with(HEADER), "{}", text);
    text[HEADER.len()..].to_string()
}

#[test]
fn an_empty_file_has_the_header_alone() {
    assert_eq!(alone(&[]), "");
}

#[test]
fn every_record_has_its_line() {
    let bytes = [
        &[0x02, 0, 5, 1, 0, 0, 1, 4][..],
        &[0x03, 0, 6, 1, 2, 1, 5, 6, 7],
        &[0x08, 0, 3, 1, 0, 1],
        &[0x08, 0, 3, 1, 0, 1],
        &[0x05, 0, 3, 1, 0, 1],
        &[0x06, 0, 1, 1],
        &[0x07, 0, 0],
        &[0x04, 0, 3, 1, 0, 1],
    ]
    .concat();
    // Fuel 260; the request reads 5 and writes 6 and 7, so it costs 8.
    let lines = "2 grant ok 0 260\n\
                 3 begin waiting:1.1 8 252\n\
                 4 deliver waiting:1.1 0 252\n\
                 5 deliver free:1.1 0 252\n\
                 6 recheck refused:11 1 251\n\
                 7 scan nothing 5 246\n\
                 8 pick nothing 0 -\n\
                 9 finish done 0 246\n";
    assert_eq!(after_open(&bytes), lines);
}

/// Item 7: "Event tags are 09 and 0B, bodies as for Finish."
#[test]
fn an_evict_and_a_cancel_have_their_lines() {
    let bytes = [
        &[0x02, 0, 5, 1, 0, 0, 0, 20][..],
        &[0x02, 0, 5, 2, 0, 0, 0, 20],
        &[0x03, 0, 4, 1, 0, 0, 7],
        &[0x03, 0, 4, 2, 0, 0, 7],
        &[0x0B, 0, 3, 1, 0, 1],
        &[0x0B, 0, 3, 2, 0, 1],
        &[0x09, 0, 3, 1, 0, 1],
        &[0x09, 0, 3, 1, 0, 1],
        &[0x0B, 0, 3, 2, 1, 0],
        &[0x09, 0, 3, 17, 0, 1],
        &[0x0B, 0, 3, 0, 0, 1],
    ]
    .concat();
    let lines = "2 grant ok 0 20\n\
                 3 grant ok 0 20\n\
                 4 begin free:1.1 4 16\n\
                 5 begin blocked:2.1@7 4 16\n\
                 6 cancel refused:11 1 15\n\
                 7 cancel done 1 15\n\
                 8 evict done 0 15\n\
                 9 evict refused:10 0 15\n\
                 10 cancel refused:10 1 14\n\
                 11 evict refused:1 0 -\n\
                 12 cancel refused:1 0 -\n";
    assert_eq!(after_open(&bytes), lines);
}

/// Numbers have the high byte first.
#[test]
fn numbers_of_more_bytes() {
    let grant = [0x02, 0, 5, 16, 0x3B, 0x9A, 0xCA, 0x00];
    assert_eq!(after_open(&grant), "2 grant ok 0 1000000000\n");
    let grant = [0x02, 0, 5, 16, 0x3B, 0x9A, 0xCA, 0x01];
    assert_eq!(after_open(&grant), "2 grant refused:13 0 0\n");
}

/// A refused call prints its tenant's fuel; no valid tenant prints `-`.
#[test]
fn the_last_field_of_a_refused_call() {
    assert_eq!(after_open(&[0x06, 0, 1, 1]), "2 scan refused:2 0 0\n");
    assert_eq!(after_open(&[0x06, 0, 1, 0]), "2 scan refused:1 0 -\n");
    assert_eq!(after_open(&[0x06, 0, 1, 17]), "2 scan refused:1 0 -\n");
    let deliver = [0x08, 0, 3, 2, 0, 1];
    assert_eq!(after_open(&deliver), "2 deliver refused:10 0 0\n");
    let evict = [0x09, 0, 3, 2, 0, 1];
    assert_eq!(after_open(&evict), "2 evict refused:10 0 0\n");
    let cancel = [0x0B, 0, 3, 2, 0, 1];
    assert_eq!(after_open(&cancel), "2 cancel refused:2 0 0\n");
}

/// Refusal 14 is a call's answer: later records run, on shares of 0.
#[test]
fn a_refused_open_goes_on() {
    let mut file = open();
    file[3] = 63;
    file.extend_from_slice(&[0x02, 0, 5, 1, 0, 0, 0, 9]);
    file.extend_from_slice(&[0x03, 0, 3, 1, 0, 0]);
    let lines = "1 open refused:14 0 -\n\
                 2 grant ok 0 9\n\
                 3 begin refused:7 1 8\n";
    assert_eq!(alone(&file), lines);
}

/// All but 01 to 09 and 0B, whatever the body: 0A is between Item 7's two tags.
#[test]
fn no_20_unknown_tag() {
    for tag in [0x00, 0x0A].into_iter().chain(0x0C..=0xFF) {
        for record in [&[tag, 0, 0][..], &[tag, 0, 3, 1, 0, 1]] {
            assert_eq!(after_open(record), "2 file refused:20 0 -\n");
            assert_eq!(alone(record), "1 file refused:20 0 -\n");
        }
    }
}

#[test]
fn no_21_cut_short() {
    assert_eq!(alone(&[0x01]), "1 file refused:21 0 -\n");
    assert_eq!(after_open(&[0x07]), "2 file refused:21 0 -\n");
    assert_eq!(after_open(&[0x07, 0]), "2 file refused:21 0 -\n");
    assert_eq!(after_open(&[0x06, 0, 1]), "2 file refused:21 0 -\n");
    for tag in [0x04, 0x09, 0x0B] {
        assert_eq!(after_open(&[tag]), "2 file refused:21 0 -\n");
        assert_eq!(after_open(&[tag, 0]), "2 file refused:21 0 -\n");
        assert_eq!(after_open(&[tag, 0, 3]), "2 file refused:21 0 -\n");
        assert_eq!(after_open(&[tag, 0, 3, 1, 0]), "2 file refused:21 0 -\n");
    }
    assert_eq!(alone(&open()[..18]), "1 file refused:21 0 -\n");
}

#[test]
fn no_22_bad_length() {
    let suited = [
        (0x01, 16),
        (0x02, 5),
        (0x04, 3),
        (0x05, 3),
        (0x06, 1),
        (0x07, 0),
        (0x08, 3),
        (0x09, 3),
        (0x0B, 3),
    ];
    for (tag, length) in suited {
        for bad in (0..=20).filter(|&bad| bad != length) {
            let mut record = vec![tag, 0, bad];
            record.resize(3 + usize::from(bad), 1);
            let lines = after_open(&record);
            assert_eq!(lines, "2 file refused:22 0 -\n", "{} {}", tag, bad);
        }
    }
}

#[test]
fn no_22_begin() {
    let bad = "2 file refused:22 0 -\n";
    assert_eq!(after_open(&[0x03, 0, 0]), bad);
    assert_eq!(after_open(&[0x03, 0, 2, 1, 0]), bad);
    assert_eq!(after_open(&[0x03, 0, 3, 1, 0, 1]), bad);
    assert_eq!(after_open(&[0x03, 0, 5, 1, 0, 3, 7, 8]), bad);
    // r at length - 3 is a suited length: the call is made.
    let dry = "2 begin refused:2 0 0\n";
    assert_eq!(after_open(&[0x03, 0, 3, 1, 0, 0]), dry);
    assert_eq!(after_open(&[0x03, 0, 5, 1, 0, 2, 7, 8]), dry);
}

#[test]
fn no_23_open_out_of_place() {
    assert_eq!(alone(&[0x07, 0, 0]), "1 file refused:23 0 -\n");
    assert_eq!(alone(&[0x09, 0, 3, 1, 0, 1]), "1 file refused:23 0 -\n");
    assert_eq!(alone(&[0x0B, 0, 3, 1, 0, 1]), "1 file refused:23 0 -\n");
    assert_eq!(after_open(&open()), "2 file refused:23 0 -\n");
    let mut bytes = vec![0x07, 0, 0];
    bytes.extend_from_slice(&open());
    let lines = "2 pick nothing 0 -\n3 file refused:23 0 -\n";
    assert_eq!(after_open(&bytes), lines);
}

#[test]
fn no_24_file_too_long() {
    // An Open, 21,839 picks of 3 bytes: 65,536 bytes and 21,840 lines.
    let mut file = open();
    for _ in 0..21_839 {
        file.extend_from_slice(&[0x07, 0, 0]);
    }
    assert_eq!(file.len(), 65_536);
    let text = listing(&file);
    assert_eq!(text.lines().count(), 1 + 21_840);
    assert!(text.ends_with("\n21840 pick nothing 0 -\n"));
    // "24 comes before any record, with record number 1."
    file.push(0x07);
    assert_eq!(alone(&file), "1 file refused:24 0 -\n");
    assert_eq!(alone(&[0xFF; 65_537]), "1 file refused:24 0 -\n");
    assert_eq!(alone(&[0xFF; 65_536]), "1 file refused:20 0 -\n");
}

/// "For one record: 21 for the head, 20, 21 for the body, 22, 23."
#[test]
fn order_for_one_record() {
    // 21 for the head before 20: an unknown tag with two bytes left.
    assert_eq!(alone(&[0xFF, 0]), "1 file refused:21 0 -\n");
    // 20 before 21 for the body: an unknown tag, and no body.
    assert_eq!(alone(&[0xFF, 0, 9]), "1 file refused:20 0 -\n");
    // 21 for the body before 22: a Scan of length 2, one byte there.
    assert_eq!(alone(&[0x06, 0, 2, 1]), "1 file refused:21 0 -\n");
    // 22 before 23: a Scan of length 2 as the first record.
    assert_eq!(alone(&[0x06, 0, 2, 1, 1]), "1 file refused:22 0 -\n");
    assert_eq!(after_open(&[0x01, 0, 1, 1]), "2 file refused:22 0 -\n");
    // 23 before any answer of the call itself.
    assert_eq!(alone(&[0x06, 0, 1, 99]), "1 file refused:23 0 -\n");
}

#[test]
fn reading_stops_at_a_file_refusal() {
    let bytes = [0x07, 0, 0, 0xEE, 0, 0, 0x07, 0, 0];
    let lines = "2 pick nothing 0 -\n3 file refused:20 0 -\n";
    assert_eq!(after_open(&bytes), lines);
}
