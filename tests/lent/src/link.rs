//! Linking a proved library.

use std::env;
use std::path::PathBuf;

/// Environment variable: the folder of the static libraries, in place of `target/staticlib` of the repository.
const FOLDER: &str = "GORVASK_STATICLIB";

/// For a build script of a package under tests/: links `libNAME.a`, where the package's feature `linked` is on.
///
/// # Panics
/// If there is no such file.
pub fn link(name: &str) {
    println!("cargo::rerun-if-env-changed={FOLDER}");
    if env::var_os("CARGO_FEATURE_LINKED").is_none() {
        return;
    }
    let folder = env::var_os(FOLDER).map_or_else(default_folder, PathBuf::from);
    let file = folder.join(format!("lib{name}.a"));
    println!("cargo::rerun-if-changed={}", file.display());
    assert!(
        file.is_file(),
        "{} is missing: `host/library` writes it, or set {FOLDER} to its folder",
        file.display()
    );
    println!("cargo::rustc-link-search=native={}", folder.display());
    println!("cargo::rustc-link-lib=static={name}");
}

fn default_folder() -> PathBuf {
    let package = env::var_os("CARGO_MANIFEST_DIR").expect("a build script has CARGO_MANIFEST_DIR");
    PathBuf::from(package).join("../../target/staticlib")
}
