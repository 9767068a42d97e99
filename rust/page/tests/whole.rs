//! A file is there whole or not at all.

use page::whole::write;
use std::fs::{self, Permissions};
use std::os::unix::fs::{symlink, PermissionsExt};
use std::os::unix::net::UnixListener;
use std::path::{Path, PathBuf};

struct Folder(PathBuf);

impl Folder {
    fn new(name: &str) -> Folder {
        let path = std::env::temp_dir().join(format!("whole-{}-{}", name, std::process::id()));
        fs::create_dir(&path).expect("a folder");
        Folder(path)
    }

    fn path(&self, name: &str) -> PathBuf {
        self.0.join(name)
    }

    /// All that lies in it, hidden or not.
    fn names(&self) -> Vec<String> {
        let entries = fs::read_dir(&self.0).expect("a folder");
        let names = entries.map(|entry| entry.expect("an entry").file_name());
        let mut names: Vec<String> = names
            .map(|name| name.to_string_lossy().into_owned())
            .collect();
        names.sort();
        names
    }
}

impl Drop for Folder {
    fn drop(&mut self) {
        let _ = fs::remove_dir_all(&self.0);
    }
}

fn text(path: &Path) -> String {
    fs::read_to_string(path).expect("a text")
}

#[test]
fn it_is_written_and_replaced() {
    let folder = Folder::new("replaced");
    let path = folder.path("a.html");
    write(&path, "one").expect("written");
    assert_eq!(text(&path), "one");
    write(&path, "2").expect("written");
    assert_eq!(text(&path), "2");
    assert_eq!(folder.names(), ["a.html"]);
}

/// The file that is there is moved out of the way, not written into: who has it
/// open goes on reading what it was.
#[test]
fn what_was_there_is_not_written_into() {
    let folder = Folder::new("moved");
    let (path, other) = (folder.path("a.html"), folder.path("b.html"));
    fs::write(&path, "before").expect("a file");
    fs::hard_link(&path, &other).expect("a second name");
    write(&path, "after").expect("written");
    assert_eq!(
        (text(&path), text(&other)),
        ("after".into(), "before".into())
    );
}

#[test]
fn who_may_read_it_stays() {
    let folder = Folder::new("permissions");
    let path = folder.path("a.html");
    fs::write(&path, "before").expect("a file");
    fs::set_permissions(&path, Permissions::from_mode(0o640)).expect("set");
    write(&path, "after").expect("written");
    let mode = fs::metadata(&path).expect("a file").permissions().mode();
    assert_eq!(mode & 0o777, 0o640);
}

#[test]
fn a_link_stays_a_link() {
    let folder = Folder::new("link");
    let (path, link) = (folder.path("a.html"), folder.path("link.html"));
    fs::write(&path, "before").expect("a file");
    symlink("a.html", &link).expect("a link");
    write(&link, "after").expect("written");
    assert_eq!(text(&path), "after");
    assert_eq!(fs::read_link(&link).expect("a link"), Path::new("a.html"));
    assert_eq!(folder.names(), ["a.html", "link.html"]);
}

#[test]
fn what_is_no_file_is_left_alone() {
    let folder = Folder::new("none");
    let (inner, socket) = (folder.path("folder"), folder.path("socket"));
    fs::create_dir(&inner).expect("a folder");
    let _listener = UnixListener::bind(&socket).expect("a socket");
    for path in [&inner, &socket] {
        let error = write(path, "text").expect_err("it is no file");
        assert_eq!(error.to_string(), "it is no file");
    }
    write(&folder.path("none/a.html"), "text").expect_err("there is no such folder");
    assert_eq!(folder.names(), ["folder", "socket"]);
}

#[test]
fn a_device_is_written_to() {
    write(Path::new("/dev/null"), "text").expect("written");
    let error = write(Path::new("/dev/full"), "text").expect_err("it is full");
    assert_eq!(error.raw_os_error(), Some(28));
}

#[test]
fn a_name_may_be_as_long_as_names_are() {
    let folder = Folder::new("long");
    let name = "a".repeat(255);
    write(&folder.path(&name), "text").expect("written");
    assert_eq!(folder.names(), [name]);
}
