//! Finds the static library and links it. Where it is missing, this says what to run: checking, documenting and the tests of
//! the library target alone need it not.

use std::env;
use std::path::{Path, PathBuf};

/// Environment variable: the folder that has the static library, in place of the repository's own.
const FOLDER: &str = "GORVASK_STATICLIB";
/// What the library is called, without what a linker puts around it.
const NAME: &str = "gorvask";

/// What there is to link.
enum Found {
    Library(PathBuf),
    /// Nothing, and what to do.
    Missing(String),
    /// A folder was named that will not do.
    Wrong(String),
}

fn main() {
    println!("cargo::rerun-if-env-changed={FOLDER}");
    println!("cargo::rerun-if-changed=build.rs");
    println!("cargo::rustc-check-cfg=cfg(gorvask_linked)");
    match find() {
        Found::Library(library) => link(&library),
        Found::Missing(words) => {
            println!("cargo::warning={words}");
            // A file that is never there: cargo asks again each time, also where the library comes with an old date.
            println!("cargo::rerun-if-changed=no-library");
        }
        Found::Wrong(words) => println!("cargo::error={words}"),
    }
}

fn find() -> Found {
    let target = env::var("CARGO_CFG_TARGET_ARCH").unwrap_or_default();
    if target != "x86_64" {
        return Found::Missing(format!(
            "nothing can be linked: the static library is for x86-64, and this build is for {target}"
        ));
    }
    match env::var_os(FOLDER).filter(|folder| !folder.is_empty()) {
        Some(folder) => named(Path::new(&folder)),
        None => own(),
    }
}

/// The folder that the variable names. It is no use to guess from where a relative one is meant: cargo runs this in the
/// package's folder, whatever the caller's is.
fn named(folder: &Path) -> Found {
    if folder.is_relative() {
        return Found::Wrong(format!(
            "{FOLDER} is {}, which is relative: name the folder from the root on",
            folder.display()
        ));
    }
    let library = watched(folder);
    if library.is_file() {
        Found::Library(library)
    } else {
        Found::Wrong(format!(
            "{FOLDER} is {}, and there is no {} in it",
            folder.display(),
            file()
        ))
    }
}

fn own() -> Found {
    let package = env::var_os("CARGO_MANIFEST_DIR").expect("cargo names the package's folder");
    let library = watched(&Path::new(&package).join("../target/staticlib"));
    if library.is_file() {
        Found::Library(library)
    } else {
        Found::Missing(format!(
            "nothing can be linked: {} is not there. Run `host/library` in the repository, or set {FOLDER} to the \
             folder that has {}",
            library.display(),
            file()
        ))
    }
}

fn file() -> String {
    format!("lib{NAME}.a")
}

fn watched(folder: &Path) -> PathBuf {
    let library = folder.join(file());
    println!("cargo::rerun-if-changed={}", library.display());
    library
}

fn link(library: &Path) {
    let library = library
        .canonicalize()
        .expect("a file that is there has a path");
    let folder = library.parent().expect("a file lies in a folder");
    println!("cargo::rustc-cfg=gorvask_linked");
    println!("cargo::rustc-link-search=native={}", folder.display());
    println!("cargo::rustc-link-lib=static={NAME}");
}
