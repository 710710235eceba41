//! Links `libnesbrunka.a`: from the folder NESBRUNKA_LIB, by default `../target/staticlib`.
//!
//! Where there is no archive this only says so: what calls the library cannot be linked then, but
//! it can be checked and documented, and tests that call nothing can run.

use std::env;
use std::path::{Path, PathBuf};

fn main() {
    println!("cargo::rerun-if-changed=build.rs");
    println!("cargo::rerun-if-env-changed=NESBRUNKA_LIB");
    let folder = folder();
    let archive = folder.join("libnesbrunka.a");
    println!("cargo::rerun-if-changed={}", archive.display());
    if archive.is_file() {
        println!("cargo::rustc-link-search=native={}", folder.display());
        println!("cargo::rustc-link-lib=static:-bundle=nesbrunka");
    } else {
        println!(
            "cargo::warning=no {}: `scripts/build nesbrunka` makes it; no call can be linked",
            archive.display()
        );
    }
}

/// A build script is not told where cargo was called from, so that a relative folder would mean
/// another one than its user thinks.
fn folder() -> PathBuf {
    let here = env::var("CARGO_MANIFEST_DIR").expect("cargo names the package's folder");
    let named = env::var("NESBRUNKA_LIB").unwrap_or_default();
    if named.is_empty() {
        return Path::new(&here).join("../target/staticlib");
    }
    let folder = PathBuf::from(named);
    assert!(folder.is_absolute(), "NESBRUNKA_LIB is not an absolute path: {}", folder.display());
    folder
}
