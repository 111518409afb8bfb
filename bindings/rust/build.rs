//! Finds the archive: in the folder that NOTERANK_ARCHIVE names, else in `dist/`, where `./build`
//! puts it.

use std::env;
use std::path::{Path, PathBuf};

const ARCHIVE: &str = "libnoterank.a";

fn folder(root: &Path) -> PathBuf {
    match env::var_os("NOTERANK_ARCHIVE") {
        Some(folder) => PathBuf::from(folder),
        None => root.join("dist"),
    }
}

fn main() {
    println!("cargo:rerun-if-env-changed=NOTERANK_ARCHIVE");
    let package = PathBuf::from(env::var_os("CARGO_MANIFEST_DIR").expect("cargo names the folder"));
    let folder = folder(&package.join("../.."));
    let archive = folder.join(ARCHIVE);
    println!("cargo:rerun-if-changed={}", archive.display());
    if !archive.is_file() {
        panic!("no {}: run ./build, or set NOTERANK_ARCHIVE", archive.display());
    }
    println!("cargo:rustc-link-search=native={}", folder.display());
    println!("cargo:rustc-link-lib=static=noterank");
}
