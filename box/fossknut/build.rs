//! Finds the static library: in `FOSSKNUT_LIB_DIR`, else where `scripts/rust-test` leaves it.

use std::env;
use std::path::{Path, PathBuf};
use std::process::exit;

/// What the library is named.
const NAME: &str = "fossknut";

fn main() {
    println!("cargo:rerun-if-env-changed=FOSSKNUT_LIB_DIR");
    // The scripts name the library's content, since Cargo sees only that a file is newer.
    println!("cargo:rerun-if-env-changed=FOSSKNUT_LIB_CONTENT");
    let folder = env::var_os("FOSSKNUT_LIB_DIR").map_or_else(
        || Path::new(env!("CARGO_MANIFEST_DIR")).join("../../target/staticlib"),
        PathBuf::from,
    );
    let library = folder.join(format!("lib{NAME}.a"));
    if !library.is_file() {
        eprintln!(
            "{} is missing: run `scripts/rust-test` at the root of the repository, which builds it, \
             or set FOSSKNUT_LIB_DIR to the folder that has it",
            library.display()
        );
        exit(1);
    }
    println!("cargo:rerun-if-changed={}", library.display());
    println!("cargo:rustc-link-search=native={}", folder.display());
    println!("cargo:rustc-link-lib=static={NAME}");
}
