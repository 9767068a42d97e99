//! Where the library is: the folder that `DAMSONPOUCH_LIB` names, or the one
//! that `bin/make-archive` writes to.

fn main() {
    println!("cargo:rerun-if-env-changed=DAMSONPOUCH_LIB");
    let folder = std::env::var("DAMSONPOUCH_LIB")
        .unwrap_or_else(|_| format!("{}/../../target/staticlib", env!("CARGO_MANIFEST_DIR")));
    println!("cargo:rerun-if-changed={}/libdamsonpouch.a", folder);
    println!("cargo:rustc-link-search=native={}", folder);
    println!("cargo:rustc-link-lib=static=damsonpouch");
}
