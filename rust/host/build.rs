//! Finds `libdamsonpouch.a`: in the folder that `DAMSONPOUCH_LIB` names, and
//! else where `bin/make-archive` writes it in this repository.

use std::env;
use std::path::{Path, PathBuf};
use std::process::exit;

const ARCHIVE: &str = "libdamsonpouch.a";
const FOLDER: &str = "DAMSONPOUCH_LIB";

fn main() {
    println!("cargo:rerun-if-changed=build.rs");
    println!("cargo:rerun-if-env-changed={}", FOLDER);
    let target = env::var("TARGET").unwrap_or_default();
    if !target.starts_with("x86_64-") {
        stop(&format!(
            "{} links only into programs for x86-64, and this build is for {}: in your crate's \
             folder use {} with --manifest-path Cargo.toml, as docs/HOST.md says, or cargo's \
             --target x86_64-unknown-linux-gnu",
            ARCHIVE,
            target,
            repository().join("bin/host-cargo").display()
        ));
    }
    let folder = folder();
    let archive = folder.join(ARCHIVE);
    println!("cargo:rerun-if-changed={}", archive.display());
    if !archive.is_file() {
        stop(&format!(
            "{} is missing: run `bin/make-archive` in the repository, or let {} name \
             the folder that has {}",
            archive.display(),
            FOLDER,
            ARCHIVE
        ));
    }
    println!("cargo:rustc-link-search=native={}", folder.display());
    println!("cargo:rustc-link-lib=static=damsonpouch");
}

/// A folder that is not named from the root is taken from where cargo was
/// called, as far as that is known.
fn folder() -> PathBuf {
    match env::var_os(FOLDER) {
        Some(named) if !named.is_empty() => {
            let start = env::var_os("PWD").map_or_else(here, PathBuf::from);
            start.join(named)
        }
        _ => repository().join("target/staticlib"),
    }
}

/// The folder of this crate.
fn here() -> PathBuf {
    PathBuf::from(env::var_os("CARGO_MANIFEST_DIR").unwrap_or_default())
}

/// The folder of the repository that this crate stands in.
fn repository() -> PathBuf {
    tidy(&here().join("../.."))
}

/// Without `..`, where the folder is there.
fn tidy(path: &Path) -> PathBuf {
    path.canonicalize().unwrap_or_else(|_| path.to_path_buf())
}

fn stop(what: &str) -> ! {
    eprintln!("damsonpouch: {}", what);
    exit(1)
}
