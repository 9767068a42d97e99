//! What a text says of its calls, by the place of the call's record.

use events::comments::comments;

/// What is said, as pairs of a place and its paragraphs.
fn said(text: &str) -> Vec<(usize, Vec<String>)> {
    comments(text.as_bytes()).into_iter().collect()
}

fn is(text: &str, wanted: &[(usize, &[&str])]) {
    let wanted: Vec<(usize, Vec<String>)> = wanted
        .iter()
        .map(|(at, said)| (*at, said.iter().map(|words| words.to_string()).collect()))
        .collect();
    assert_eq!(said(text), wanted, "{}", text);
}

/// Open takes 19 bytes, Grant 8, Pick 3.
#[test]
fn beside_and_above() {
    is("open 2 # two places\npick\n", &[(0, &["two places"])]);
    is("# first\nopen 2\n", &[(0, &["first"])]);
    is(
        "open\ngrant 1 4   #  some   fuel \npick # front\n",
        &[(19, &["some fuel"]), (27, &["front"])],
    );
    is(
        "# one\n# two\nopen # three\n",
        &[(0, &["one two", "three"])],
    );
    is("open\npick\n", &[]);
    is("", &[]);
}

#[test]
fn paragraphs() {
    is("# a\n\n# b\nopen\n", &[(0, &["a", "b"])]);
    is("# a\n#\n# b\n  # c\nopen\n", &[(0, &["a", "b c"])]);
    is(
        "open # a\n# b\n# c\npick # d # e\n",
        &[(0, &["a"]), (19, &["b c", "d # e"])],
    );
}

#[test]
fn below_the_last_call() {
    is("open\npick # a\n# b\n\n# c\n", &[(19, &["a", "b", "c"])]);
    is("# nothing but this\n", &[(0, &["nothing but this"])]);
}

#[test]
fn marks_line_ends_and_bytes() {
    is(
        "\u{FEFF}open # a\r\n# b\r\npick # c\r\n",
        &[(0, &["a"]), (19, &["b", "c"])],
    );
    is("raw 01 00 # a\nraw 10\n", &[(0, &["a"])]);
}

#[test]
fn a_wrong_line_ends_it() {
    is("open # a\nopne # b\npick # c\n", &[(0, &["a"])]);
    assert_eq!(comments(b"open # a\n# \xFF\npick # b\n").len(), 1);
}
