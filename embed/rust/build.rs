//! Links the static library of crates/exports, through crates/exports_c, where `./namakviz library` has made it.

use std::path::Path;

const ARCHIVE: &str = "../../target/staticlib/libexports.a";

fn main() {
    println!("cargo::rerun-if-changed={ARCHIVE}");
    let Ok(archive) = Path::new(ARCHIVE).canonicalize() else {
        println!("cargo::error=target/staticlib/libexports.a is not there: run './namakviz library' in the repository and build again");
        return;
    };
    println!("cargo::rustc-link-search=native={}", archive.parent().expect("a file has a folder").display());
    println!("cargo::rustc-link-lib=static=exports");
}
