//! Links the static library of the exports, which `rt lib` leaves in the out/ of their crate. Where it is not there, nothing is linked: the programs
//! that call no export (`capture`, `recording`, `outside_replay`, `timeline`, `conformance`) are then built all the same, with cargo alone, and only
//! those that call one, such as `compare`, and the tests miss it.

use std::env;
use std::path::PathBuf;

fn main() {
    let harness = PathBuf::from(env::var_os("CARGO_MANIFEST_DIR").expect("cargo names the folder of the package"));
    let exports = harness.join("../crates/exports");
    let library = exports.join("out/libexports.a");
    // Cargo takes a file that is missing for changed each time; of a folder it looks for a file in it that is new.
    let watched = if library.is_file() { &library } else { &exports };
    println!("cargo:rerun-if-changed={}", watched.display());
    if library.is_file() {
        println!("cargo:rustc-link-search=native={}", exports.join("out").display());
        println!("cargo:rustc-link-lib=static=exports");
    }
}
