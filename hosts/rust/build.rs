//! Finds libpeashuttle.a: in the folder that PEASHUTTLE_LIB_DIR names, or else in `lib` beside Cargo.toml.

use std::path::{Path, PathBuf};
use std::process::exit;

const VARIABLE: &str = "PEASHUTTLE_LIB_DIR";
const ARCHIVE: &str = "libpeashuttle.a";

fn main() {
    println!("cargo:rerun-if-changed=build.rs");
    println!("cargo:rerun-if-env-changed={VARIABLE}");
    let architecture = std::env::var("CARGO_CFG_TARGET_ARCH").unwrap_or_default();
    if architecture != "x86_64" {
        fail(&format!("{ARCHIVE} is for x86_64 alone, and the target is {architecture}; build for an x86_64 target."));
    }
    let folder = folder();
    let folder = folder.canonicalize().unwrap_or(folder);
    let archive = folder.join(ARCHIVE);
    println!("cargo:rerun-if-changed={}", archive.display());
    if !archive.is_file() {
        fail(&format!(
            "there is no {ARCHIVE} in {}; set {VARIABLE} to the folder that has it, which hosts/package makes.",
            folder.display()
        ));
    }
    println!("cargo:rustc-link-search=native={}", folder.display());
    println!("cargo:rustc-link-lib=static=peashuttle");
}

/// The folder in which the archive has to be.
fn folder() -> PathBuf {
    if let Some(named) = std::env::var_os(VARIABLE) {
        return PathBuf::from(named);
    }
    let beside = std::env::var_os("CARGO_MANIFEST_DIR").unwrap_or_default();
    Path::new(&beside).join("lib")
}

fn fail(sentence: &str) -> ! {
    eprintln!("peashuttle: {sentence}");
    exit(1);
}
