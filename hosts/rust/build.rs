//! Finds the library: in the folder that `LIIVOKARP_LIB` names, or where the repository builds it.

use std::env;
use std::path::{Path, PathBuf};

const VARIABLE: &str = "LIIVOKARP_LIB";
const ARCHIVE: &str = "libliivokarp.a";

fn folder() -> PathBuf {
    if let Some(folder) = env::var_os(VARIABLE) {
        return PathBuf::from(folder);
    }
    let package = env::var("CARGO_MANIFEST_DIR").expect("cargo names the package's folder");
    Path::new(&package).join("../../target/staticlib")
}

fn main() {
    println!("cargo:rerun-if-changed=build.rs");
    println!("cargo:rerun-if-env-changed={VARIABLE}");
    let folder = folder();
    let archive = folder.join(ARCHIVE);
    println!("cargo:rerun-if-changed={}", archive.display());
    if !archive.exists() {
        // Documentation and checks can do without it, so this is no error yet.
        let folder = folder.display();
        println!("cargo:warning={ARCHIVE} is not in {folder}; {VARIABLE} may name its folder");
    }
    println!("cargo:rustc-link-search=native={}", folder.display());
    println!("cargo:rustc-link-lib=static=liivokarp");
}
