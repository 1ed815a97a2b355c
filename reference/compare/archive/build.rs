//! Tells the linker where the archive of the library under test lies.

use std::env;
use std::path::PathBuf;

fn main() {
    let folder = folder();
    println!("cargo:rerun-if-changed=build.rs");
    println!("cargo:rerun-if-env-changed=PATHPLUS_LIB");
    println!("cargo:rustc-link-search=native={}", folder.display());
    let archive = folder.join("libpathplus.a");
    println!("cargo:rerun-if-changed={}", archive.display());
}

/// The folder named by PATHPLUS_LIB, or the one the archive is built into.
fn folder() -> PathBuf {
    let package = env::var_os("CARGO_MANIFEST_DIR").expect("cargo names the package's folder");
    let built = PathBuf::from(package).join("../../../target/staticlib");
    env::var_os("PATHPLUS_LIB").map_or(built, PathBuf::from)
}
