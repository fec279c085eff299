//! Links `libNAME.a`, which `.ci/staticlib NAME` writes, where NAME is the `links` of Cargo.toml; from the folder that
//! `$STATICLIB_DIR` names by its whole path, without it from `target/staticlib` of the repository this stands in.
//! `host/nan_bits` and `host/steps` have this build script too.
use std::env;
use std::path::{Path, PathBuf};

fn main() {
    println!("cargo:rerun-if-env-changed=STATICLIB_DIR");
    let set = |name: &str| env::var(name).unwrap_or_else(|_| panic!("cargo sets {name}"));
    let (here, name) = (set("CARGO_MANIFEST_DIR"), set("CARGO_MANIFEST_LINKS"));
    let folder = match env::var("STATICLIB_DIR") {
        Ok(folder) => PathBuf::from(folder),
        Err(_) => Path::new(&here).join("../../target/staticlib"),
    };
    let archive = folder.join(format!("lib{name}.a"));
    println!("cargo:rerun-if-changed={}", archive.display());
    assert!(archive.exists(), "{} is missing: run `.ci/staticlib {name}` first", archive.display());
    println!("cargo:rustc-link-search=native={}", folder.display());
    println!("cargo:rustc-link-lib=static={name}");
}
