//! Links libmsgq.a of MSGQ_LIB, or of c/out of the repository.

use std::env;
use std::fs;
use std::path::Path;
use std::process::exit;

fn main() {
    let beside = format!("{}/../c/out", env::var("CARGO_MANIFEST_DIR").unwrap());
    let folder = env::var("MSGQ_LIB").unwrap_or(beside);
    let archive = Path::new(&folder).join("libmsgq.a");
    println!("cargo:rerun-if-env-changed=MSGQ_LIB");
    println!("cargo:rerun-if-changed={}", archive.display());
    let bytes = fs::read(&archive).unwrap_or_else(|error| {
        eprintln!("msgq: {}: {error}", archive.display());
        eprintln!("msgq: run c/build, which makes c/out/libmsgq.a, or let MSGQ_LIB name the folder of one");
        exit(1)
    });
    // An archive spells the names of its functions.
    if bytes.windows(12).any(|name| name == b"msgq_reason\0") {
        println!("cargo:rustc-cfg=has_reason");
    }
    println!("cargo:rustc-link-search=native={folder}");
    println!("cargo:rustc-link-lib=static=msgq");
}
