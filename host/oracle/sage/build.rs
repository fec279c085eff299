//! Copies sage's files out of `$SAGE_SRC` for the compiler, byte for byte, and checks the copies.
//!
//! `$SAGE_SRC` is the folder that holds crates/sage/src; a relative path starts at the repository's
//! root, and the default is ../shared/docs/src beside it. A probe of ours is appended to the copies of
//! the regression, the alignment and both models, to read what they keep to themselves; nothing else
//! is added and nothing is changed. `host/bench/all_cores` has this build script too.

use std::path::{Path, PathBuf};
use std::{env, fs};

/// The files compiled, each with the probe appended to its copy.
const FILES: [(&str, &str); 8] = [
    ("mass.rs", ""),
    ("ml/mod.rs", ""),
    ("ml/gauss.rs", ""),
    ("ml/matrix.rs", ""),
    ("ml/regression.rs", include_str!("probes/regression.rs")),
    ("ml/retention_alignment.rs", include_str!("probes/retention_alignment.rs")),
    ("ml/retention_model.rs", include_str!("probes/retention_model.rs")),
    ("ml/mobility_model.rs", include_str!("probes/mobility_model.rs")),
];

/// Modules that ml/mod.rs names and none of the files above uses: empty files.
const EMPTY: [&str; 3] = ["ml/kde.rs", "ml/linear_discriminant.rs", "ml/qvalue.rs"];

fn main() {
    let source = source_dir();
    let out = PathBuf::from(env::var("OUT_DIR").expect("cargo sets OUT_DIR"));
    let copies = out.join("sage");
    fs::create_dir_all(copies.join("ml")).expect("the build's folder can be written");
    for (name, probe) in FILES {
        copy(&source.join(name), &copies.join(name), probe);
    }
    for name in EMPTY {
        fs::write(copies.join(name), "").expect("the build's folder can be written");
    }
    fs::write(out.join("modules.rs"), modules(&source, &copies))
        .expect("the build's folder can be written");
    println!("cargo:rerun-if-env-changed=SAGE_SRC");
}

/// The folder crates/sage/src under `$SAGE_SRC`.
fn source_dir() -> PathBuf {
    let package = env::var("CARGO_MANIFEST_DIR").expect("cargo sets CARGO_MANIFEST_DIR");
    let root = Path::new(&package).join("../../..");
    let given = env::var("SAGE_SRC").ok().filter(|s| !s.is_empty());
    let source = given.as_deref().unwrap_or("../shared/docs/src");
    let folder = root.join(source).join("crates/sage/src");
    folder.canonicalize().unwrap_or_else(|e| {
        panic!("{}: {e}; SAGE_SRC must be the folder that holds crates/sage/src", folder.display())
    })
}

/// Copies one file, appends the probe, reads the copy back and checks every byte of it.
fn copy(from: &Path, to: &Path, probe: &str) {
    println!("cargo:rerun-if-changed={}", from.display());
    let read = |path: &Path| fs::read(path).unwrap_or_else(|e| panic!("{}: {e}", path.display()));
    let mut bytes = read(from);
    bytes.extend_from_slice(probe.as_bytes());
    fs::write(to, &bytes).expect("the build's folder can be written");
    let written = read(to);
    let kept = written.strip_suffix(probe.as_bytes());
    assert!(kept == Some(&read(from)[..]), "the copy of {} differs from it", from.display());
}

/// The module declarations, and for the tests the bytes that they compile.
fn modules(source: &Path, copies: &Path) -> String {
    let compiled: String = FILES
        .iter()
        .map(|(name, probe)| {
            format!("({name:?}, include_bytes!({:?}), {probe:?}),\n", copies.join(name))
        })
        .collect();
    format!(
        "#[path = {:?}]\npub mod mass;\n#[path = {:?}]\npub mod ml;\n\
         /// Where the files were taken from.\npub const SOURCE: &str = {source:?};\n\
         /// Each file's name, the bytes compiled, and the probe they end with.\n\
         pub const COMPILED: &[(&str, &[u8], &str)] = &[\n{compiled}];\n",
        copies.join("mass.rs"),
        copies.join("ml/mod.rs"),
    )
}
