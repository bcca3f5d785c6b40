//! Tells the linker where the proved library lies: in the folder that
//! BINMODE_LIB_DIR names, or where `link/archive` puts it.

use std::path::PathBuf;

/// Only the library of this major version has it.
const VERSION: &[u8] = b"binmode_version_2\0";

fn main() {
    println!("cargo::rerun-if-env-changed=BINMODE_LIB_DIR");
    let package = std::env::var_os("CARGO_MANIFEST_DIR").expect("cargo sets it");
    let folder = match std::env::var_os("BINMODE_LIB_DIR") {
        Some(folder) => PathBuf::from(folder),
        None => PathBuf::from(package).join("../../target/staticlib"),
    };
    let library = folder.join("libbinmode.a");
    println!("cargo::rerun-if-changed={}", library.display());
    match std::fs::read(&library) {
        Err(error) => println!(
            "cargo::error={}: {error}. Run `link/archive` at the top of the repository, or set \
             BINMODE_LIB_DIR to the folder that has libbinmode.a",
            library.display()
        ),
        Ok(bytes) if !bytes.windows(VERSION.len()).any(|part| part == VERSION) => println!(
            "cargo::error={}: not of the major version that this crate is written for",
            library.display()
        ),
        Ok(_) => {
            println!("cargo::rustc-link-search=native={}", folder.display());
            println!("cargo::rustc-link-lib=static=binmode");
        }
    }
}
