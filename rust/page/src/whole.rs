//! A file that is there whole or not at all.

use std::fs::{self, OpenOptions};
use std::io::{self, Write};
use std::os::unix::fs::FileTypeExt;
use std::path::{Path, PathBuf};
use std::process;

/// Writes a text beside its place and moves it there: what stands there stays
/// until then, and where something goes wrong. Of a link, what it leads to is
/// the place. A device is written to, since nothing stands in it.
pub fn write(path: &Path, text: &str) -> io::Result<()> {
    let place = fs::canonicalize(path).unwrap_or_else(|_| path.to_path_buf());
    let before = fs::metadata(&place).ok();
    if matches!(&before, Some(before) if before.file_type().is_char_device()) {
        return fs::write(&place, text);
    }
    if matches!(&before, Some(before) if !before.is_file()) {
        return Err(io::Error::new(io::ErrorKind::Other, "it is no file"));
    }
    let beside = beside(&place);
    let mut file = OpenOptions::new()
        .write(true)
        .create_new(true)
        .open(&beside)?;
    let written = file.write_all(text.as_bytes()).and_then(|()| {
        if let Some(before) = before {
            file.set_permissions(before.permissions())?;
        }
        fs::rename(&beside, &place)
    });
    if written.is_err() {
        // What went wrong first is what is told.
        let _ = fs::remove_file(&beside);
    }
    written
}

/// A hidden file in the same folder, by a name of this process alone.
fn beside(place: &Path) -> PathBuf {
    place.with_file_name(format!(".damsonpouch-{}", process::id()))
}
