//! Links the archive of `rt lib` in crates/capi. `DA_ARCHIVE` names the folder that holds it; by default it is the repository's own.

use std::env;
use std::path::PathBuf;

fn main() {
    println!("cargo:rerun-if-env-changed=DA_ARCHIVE");
    let here = PathBuf::from(env::var("CARGO_MANIFEST_DIR").expect("set by cargo"));
    let folder = env::var("DA_ARCHIVE").map_or_else(|_| here.join("../../crates/capi/out"), PathBuf::from);
    let archive = folder.join("libcapi.a");
    assert!(archive.is_file(), "no {}: `rt lib` in crates/capi makes it", archive.display());
    println!("cargo:rerun-if-changed={}", archive.display());
    println!("cargo:rustc-link-search=native={}", folder.display());
    println!("cargo:rustc-link-lib=static=capi");
}
