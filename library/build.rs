//! Links `libsettlement_book.a`: from the repository's `target/staticlib`, or from
//! the folder that `SETTLEMENT_BOOK_LIBRARY` names.

use std::path::PathBuf;

const FOLDER: &str = "SETTLEMENT_BOOK_LIBRARY";

fn main() {
    println!("cargo::rerun-if-env-changed={FOLDER}");
    let folder = match std::env::var_os(FOLDER) {
        Some(folder) => PathBuf::from(folder),
        None => PathBuf::from(env!("CARGO_MANIFEST_DIR")).join("../target/staticlib"),
    };
    let archive = folder.join("libsettlement_book.a");
    println!("cargo::rerun-if-changed={}", archive.display());
    if !archive.is_file() {
        println!(
            "cargo::error={} is missing: run `library/build` in the repository, \
             or set {FOLDER} to the folder that has it",
            archive.display()
        );
        return;
    }
    println!("cargo::rustc-link-search=native={}", folder.display());
    println!("cargo::rustc-link-lib=static=settlement_book");
}
