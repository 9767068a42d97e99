//! The proved listing and the second program's, line by line: what is shown of
//! the first, and what is said where the second differs.

/// A line of both listings. Either may have ended before the other.
#[derive(Clone, Copy, Debug, PartialEq, Eq)]
pub struct Line<'a> {
    pub proved: Option<&'a [u8]>,
    pub own: Option<&'a [u8]>,
}

/// The lines of both, with their line feeds, as long as one of them has any.
pub fn beside<'a>(proved: &'a [u8], own: &'a [u8]) -> impl Iterator<Item = Line<'a>> {
    let mut proved = lines(proved);
    let mut own = lines(own);
    std::iter::from_fn(move || {
        let line = Line {
            proved: proved.next(),
            own: own.next(),
        };
        line.proved.or(line.own).map(|_| line)
    })
}

fn lines(text: &[u8]) -> impl Iterator<Item = &[u8]> {
    text.split_inclusive(|&byte| byte == b'\n')
}

impl Line<'_> {
    /// The proved line without its line feed.
    pub fn shown(&self) -> Option<String> {
        self.proved.map(|line| {
            let line = line.strip_suffix(b"\n").unwrap_or(line);
            String::from_utf8_lossy(line).into_owned()
        })
    }

    /// What a reader is told where the two are not the same.
    pub fn difference(&self) -> Option<String> {
        match (self.proved, self.own) {
            (proved, own) if proved == own => None,
            (Some(_), Some(own)) => Some(format!("the second program has {}", quoted(own))),
            (None, Some(own)) => Some(format!("no line; the second program has {}", quoted(own))),
            (_, None) => Some(String::from("the second program has no such line")),
        }
    }
}

/// With its line feed, which may be all that differs.
fn quoted(line: &[u8]) -> String {
    format!("{:?}", String::from_utf8_lossy(line))
}
