//! Stops the build unless the kept sources are, byte for byte, those named in SHA256SUMS.

use std::env;
use std::fs;
use std::path::{Path, PathBuf};

mod sha256;

fn main() {
    let oracle = oracle_folder();
    let list = oracle.join("SHA256SUMS");
    let sums = read(&list);
    let sums = String::from_utf8(sums).expect("SHA256SUMS is text");
    println!("cargo::rerun-if-changed={}", list.display());
    for kept in [
        "interpolation/spline_filter.rs",
        "interpolation/zoom_shift.rs",
        "pad.rs",
    ] {
        check(&oracle, &format!("ndimage/src/{kept}"), &sums);
    }
}

fn oracle_folder() -> PathBuf {
    let crate_folder = env::var("CARGO_MANIFEST_DIR").expect("cargo names the crate's folder");
    Path::new(&crate_folder).join("..")
}

fn read(path: &Path) -> Vec<u8> {
    fs::read(path).unwrap_or_else(|error| panic!("{}: {error}", path.display()))
}

/// The line of `sha256sum` for the file must stand in the list.
fn check(oracle: &Path, name: &str, sums: &str) {
    let path = oracle.join(name);
    println!("cargo::rerun-if-changed={}", path.display());
    let line = format!("{}  {name}", sha256::hex_digest(&read(&path)));
    assert!(
        sums.lines().any(|listed| listed == line),
        "{name} is not the file whose SHA-256 stands in SHA256SUMS"
    );
}
