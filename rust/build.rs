//! Finds the native archive and has it linked: the one that `PYLONFRITH_ARCHIVE` names, or else the one that `./pylonfrith`
//! makes in the repository's target folder.

use std::env;
use std::fs;
use std::path::{Path, PathBuf};
use std::process::exit;

const NAMED_BY: &str = "PYLONFRITH_ARCHIVE";

fn main() {
    println!("cargo:rerun-if-env-changed={NAMED_BY}");
    let archive = match env::var_os(NAMED_BY) {
        Some(named) if !named.is_empty() => PathBuf::from(named),
        _ => default_archive(),
    };
    println!("cargo:rerun-if-changed={}", archive.display());
    let linked = variable("OUT_DIR").join("libpylonfrith.a");
    // A copy of a read-only archive is read-only too, and could not be written again.
    let _ = fs::remove_file(&linked);
    if let Err(error) = fs::copy(&archive, linked) {
        fail(&format!("no archive at {}: {error}", archive.display()));
    }
    println!(
        "cargo:rustc-link-search=native={}",
        variable("OUT_DIR").display()
    );
    println!("cargo:rustc-link-lib=static=pylonfrith");
}

/// Where `tools/staticlib pylonfrith` and `tools/arm64 pylonfrith` write it.
fn default_archive() -> PathBuf {
    let folder = match env::var("CARGO_CFG_TARGET_ARCH").as_deref() {
        Ok("x86_64") => "staticlib",
        Ok("aarch64") => "arm64",
        _ => fail("archives are made for x86_64 and aarch64 only"),
    };
    let package = variable("CARGO_MANIFEST_DIR");
    let top = package.parent().unwrap_or_else(|| Path::new("."));
    top.join("target").join(folder).join("libpylonfrith.a")
}

fn variable(name: &str) -> PathBuf {
    match env::var_os(name) {
        Some(value) => PathBuf::from(value),
        None => fail(&format!("cargo did not set {name}")),
    }
}

fn fail(what: &str) -> ! {
    eprintln!("pylonfrith: {what}");
    eprintln!("'./pylonfrith demo' in the repository's top folder makes the archive; {NAMED_BY} names another one");
    exit(1)
}
