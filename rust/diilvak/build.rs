//! Links the proved library, libdiilvak.a: the one in the folder that DIILVAK_LIB_DIR names, or else in
//! crates/diilvak/out. Without it nothing is built.
use std::path::{Path, PathBuf};

fn main() {
    println!("cargo::rerun-if-env-changed=DIILVAK_LIB_DIR");
    println!("cargo::rerun-if-changed=build.rs");
    let named = std::env::var_os("DIILVAK_LIB_DIR").map(PathBuf::from);
    let folder = named.clone().unwrap_or_else(|| {
        let package = std::env::var_os("CARGO_MANIFEST_DIR").expect("set by cargo");
        Path::new(&package).join("../../crates/diilvak/out")
    });
    let archive = folder.join("libdiilvak.a");
    println!("cargo::rerun-if-changed={}", archive.display());
    if !archive.is_file() {
        let from = if named.is_some() { "DIILVAK_LIB_DIR: " } else { "" };
        println!(
            "cargo::error={from}there is no {}; `rt lib` in crates/diilvak writes it to its out/",
            archive.display()
        );
        return;
    }
    let folder = folder.canonicalize().expect("it holds the library");
    println!("cargo::rustc-link-search=native={}", folder.display());
    println!("cargo::rustc-link-lib=static=diilvak");
    // The tests of the C example link the same library.
    println!("cargo::rustc-env=DIILVAK_LIB_DIR={}", folder.display());
}
