//! Links the archive: the one in the folder that ARCHIVE_FOLDER names, or the one that was built from the proofs.

use std::path::PathBuf;

fn main() {
    println!("cargo:rerun-if-env-changed=ARCHIVE_FOLDER");
    let folder = match std::env::var_os("ARCHIVE_FOLDER") {
        Some(folder) => PathBuf::from(folder),
        None => PathBuf::from(env!("CARGO_MANIFEST_DIR")).join("../../target/staticlib"),
    };
    let archive = folder.join("libballuchaw.a");
    println!("cargo:rerun-if-changed={}", archive.display());
    println!("cargo:rustc-link-search=native={}", folder.display());
    println!("cargo:rustc-link-lib=static=balluchaw");
}
