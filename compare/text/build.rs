//! Tells the linker where `link/archive` puts the two text checks. Each is a library of its own, so that each is compiled as if
//! the other were not there.

use std::path::PathBuf;

fn main() {
    let package = std::env::var_os("CARGO_MANIFEST_DIR").expect("cargo sets it");
    let folder = PathBuf::from(package).join("../../target/staticlib");
    println!("cargo::rustc-link-search=native={}", folder.display());
    for name in ["utf8", "utf8_bytewise"] {
        let library = folder.join(format!("lib{name}.a"));
        assert!(
            library.exists(),
            "a text check is not built: run `link/archive {name}` first"
        );
        println!("cargo::rerun-if-changed={}", library.display());
        println!("cargo::rustc-link-lib=static={name}");
    }
}
