//! Tells the linker where the archive of the proved library is.

use std::env;
use std::path::PathBuf;

fn main() {
    let here = env::var_os("CARGO_MANIFEST_DIR").expect("cargo names the package's folder");
    let folder = PathBuf::from(here).join("../../target/staticlib");
    let archive = folder.join("libomh.a");
    println!("cargo:rerun-if-changed={}", archive.display());
    println!("cargo:rustc-link-search=native={}", folder.display());
    assert!(archive.exists(), "{} is missing; tools/archive writes it", archive.display());
}
