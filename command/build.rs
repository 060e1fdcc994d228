//! Gives the command the SHA-256 of the library that it is linked with, so that a report can say by what it was made.

use std::path::Path;
use std::process::Command;

fn main() {
    let folder = Path::new(env!("CARGO_MANIFEST_DIR"));
    let archive = folder.join("../target/staticlib/libexports.a");
    let said = Command::new("sha256sum").arg(&archive).output().expect("sha256sum can't be run");
    assert!(said.status.success(), "no SHA-256 of {}", archive.display());
    let sum = String::from_utf8_lossy(&said.stdout);
    println!("cargo:rustc-env=LIBRARY_SHA256={}", &sum[..64]);
    println!("cargo:rerun-if-changed={}", archive.display());
}
