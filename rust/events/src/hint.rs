//! What an input seems to be that is neither text nor an event file, by how it
//! begins. No text of calls and no event file that is read to its end begins so.

const UTF_16: &str = "UTF-16 text, and the text of calls is UTF-8";
const PACKED: &str = "a packed file: unpack it first";
const PICTURE: &str = "a picture";

/// The first bytes, what such a file is, and what is said of it.
const BEGINNINGS: [(&[u8], &str, &str); 13] = [
    (b"\xff\xfe", "iconv -f UTF-16 -t UTF-8", UTF_16),
    (b"\xfe\xff", "iconv -f UTF-16 -t UTF-8", UTF_16),
    (b"\x1f\x8b", "gunzip", PACKED),
    (b"PK\x03\x04", "unzip", PACKED),
    (b"BZh", "bunzip2", PACKED),
    (b"\xfd7zXZ\0", "unxz", PACKED),
    (b"\x28\xb5\x2f\xfd", "unzstd", PACKED),
    (b"\x89PNG", "PNG", PICTURE),
    (b"\xff\xd8\xff", "JPEG", PICTURE),
    (b"GIF8", "GIF", PICTURE),
    (b"II*\0", "TIFF", PICTURE),
    (b"MM\0*", "TIFF", PICTURE),
    (b"%PDF", "PDF", "a document"),
];

/// A line that says what the input looks like, if that is something else.
pub fn hint(input: &[u8]) -> Option<String> {
    let (known, said) = by_beginning(input)
        .or_else(|| unmarked(input))
        .or_else(|| in_riff(input))?;
    Some(format!("hint: this looks like {} ({})", said, known))
}

fn by_beginning(input: &[u8]) -> Option<(&'static str, &'static str)> {
    let mut known = BEGINNINGS.iter();
    let found = known.find(|(bytes, ..)| input.starts_with(bytes));
    found.map(|&(_, known, said)| (known, said))
}

/// UTF-16 without a byte-order mark has a zero byte beside each letter of ASCII.
fn unmarked(input: &[u8]) -> Option<(&'static str, &'static str)> {
    match input {
        [b' '..=b'~', 0, b' '..=b'~', 0, ..] => Some(("iconv -f UTF-16LE -t UTF-8", UTF_16)),
        [0, b' '..=b'~', 0, b' '..=b'~', ..] => Some(("iconv -f UTF-16BE -t UTF-8", UTF_16)),
        _ => None,
    }
}

fn in_riff(input: &[u8]) -> Option<(&'static str, &'static str)> {
    match input {
        [b'R', b'I', b'F', b'F', _, _, _, _, b'W', b'E', b'B', b'P', ..] => Some(("WebP", PICTURE)),
        _ => None,
    }
}
