//! Where the archive is: `HEIDRUNOK_LIB_DIR`, or crates/heidrunok/out of the repository that this crate stands in.
use std::{env, path::PathBuf};

fn main() {
    println!("cargo:rerun-if-env-changed=HEIDRUNOK_LIB_DIR");
    let os = env::var("CARGO_CFG_TARGET_OS").unwrap_or_default();
    let arch = env::var("CARGO_CFG_TARGET_ARCH").unwrap_or_default();
    assert!(os == "linux" && arch == "x86_64", "the archive is for x86-64 Linux, not for {arch} {os}");
    let beside = || PathBuf::from(env::var_os("CARGO_MANIFEST_DIR").unwrap()).join("../../crates/heidrunok/out");
    let dir = env::var_os("HEIDRUNOK_LIB_DIR").map_or_else(beside, PathBuf::from);
    let archive = dir.join("libheidrunok.a");
    assert!(
        archive.is_file(),
        "no {}: run `rt lib` in the repository's crates/heidrunok, or set HEIDRUNOK_LIB_DIR",
        archive.display()
    );
    println!("cargo:rerun-if-changed={}", archive.display());
    println!("cargo:rustc-link-search=native={}", dir.display());
    println!("cargo:rustc-link-lib=static=heidrunok");
}
