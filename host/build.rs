//! Links the static library of the exports, which `bash examples/run` leaves in the out/ of their crate; where it is missing, says so.

use std::env;
use std::path::PathBuf;
use std::process;

fn main() {
    let host = PathBuf::from(env::var_os("CARGO_MANIFEST_DIR").expect("cargo names the folder of the package"));
    let libraries = host.join("../crates/exports/out");
    let library = libraries.join("libexports.a");
    println!("cargo:rerun-if-changed={}", library.display());
    if !library.is_file() {
        eprintln!("The library of the proved port is missing: {}", library.display());
        eprintln!("Run `bash examples/run` in the repository, which proves it and builds it, then build this package again.");
        process::exit(1);
    }
    println!("cargo:rustc-link-search=native={}", libraries.display());
    println!("cargo:rustc-link-lib=static=exports");
}
