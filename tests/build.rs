//! Links libmmtf.a statically, from MMTF_LIB_DIR or else from ../target/staticlib.

use std::env;
use std::path::PathBuf;

fn main() {
    let package = PathBuf::from(env::var_os("CARGO_MANIFEST_DIR").expect("set by cargo"));
    let folder = match env::var_os("MMTF_LIB_DIR") {
        Some(folder) => PathBuf::from(folder),
        None => package.join("../target/staticlib"),
    };
    let folder = folder.canonicalize().unwrap_or(folder);
    let archive = folder.join("libmmtf.a");
    if !archive.is_file() {
        println!("cargo:warning=there is no {}", archive.display());
    }
    println!("cargo:rerun-if-env-changed=MMTF_LIB_DIR");
    println!("cargo:rerun-if-changed={}", archive.display());
    println!("cargo:rustc-link-search=native={}", folder.display());
    println!("cargo:rustc-link-lib=static=mmtf");
}
