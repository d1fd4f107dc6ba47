//! The original clausifier's sources: where they are, whether they are the known ones, and exact replacements in them.

mod replace;
mod sha256;

use std::fs;
use std::path::{Path, PathBuf};

pub use replace::{Replacement, once, replace};
pub use sha256::sha256;

/// Environment variable: the full path of a folder laid out like docs/src, in place of the one beside the repository.
pub const FOLDER: &str = "GORVASK_RUSTDL";

/// The modules that the clausifier needs, each with the SHA-256 of its file.
pub const MODULES: [(&str, &str); 6] = [
    (
        "ir",
        "6c15fe6c75c56c909c536fea1e0ce73909cf93b2638eea6873ce383d2ce7fc00",
    ),
    (
        "dropped",
        "6dcd9766398283343e67b41f503fa1dd40ee08ab65904a55b2b48607d0851343",
    ),
    (
        "vocab",
        "12d3e442a25e9418178662dca86daa18ca9b75edba217b78568f0ee931c0de47",
    ),
    (
        "ontology",
        "36228fa8a632934b1bcdf051654c82b921280eb8f3a5079b15b0b86d7f5ef470",
    ),
    (
        "normalize",
        "0f54144304511344b6791db7422b8bf027dfe555ebcca61d207bece8105eded5",
    ),
    (
        "clause",
        "a8a4469e005b211df6ead6f342640be892af874971ee0f3ee46e6e5d1a22a554",
    ),
];

/// One of the original files, tested by its hash.
#[derive(Clone, Debug)]
pub struct Module {
    pub name: &'static str,
    pub path: PathBuf,
    pub text: String,
}

/// The folder of the original sources.
#[must_use]
pub fn folder() -> PathBuf {
    std::env::var_os(FOLDER).map_or_else(
        || Path::new(env!("CARGO_MANIFEST_DIR")).join("../../../shared/docs/src"),
        PathBuf::from,
    )
}

/// The modules below `folder`, in the order of [`MODULES`].
///
/// # Errors
/// If a file is missing or is not the known one.
pub fn modules(folder: &Path) -> Result<Vec<Module>, String> {
    MODULES
        .iter()
        .map(|&(name, digest)| module(folder, name, digest))
        .collect()
}

fn module(folder: &Path, name: &'static str, digest: &str) -> Result<Module, String> {
    let path = folder.join(format!("crates/owl-dl-core/src/{name}.rs"));
    let at = path.display().to_string();
    let path = path.canonicalize().map_err(|error| {
        format!("{at}: {error}; set {FOLDER} to a folder laid out like docs/src, with the original sources")
    })?;
    let bytes = fs::read(&path).map_err(|error| format!("{at}: {error}"))?;
    check(&at, &bytes, digest)?;
    let text = String::from_utf8(bytes).map_err(|error| format!("{at}: {error}"))?;
    Ok(Module { name, path, text })
}

/// Tests that `bytes` have the SHA-256 `digest`.
///
/// # Errors
/// With both digests if they do not.
pub fn check(file: &str, bytes: &[u8], digest: &str) -> Result<(), String> {
    let found = sha256(bytes);
    if found == digest {
        return Ok(());
    }
    Err(format!(
        "{file} is not the known source: its SHA-256 is {found}, expected {digest}"
    ))
}

/// For a build script: the modules, with the lines that make cargo run it again when they change.
///
/// # Panics
/// If a file is missing or is not the known one.
#[must_use]
pub fn for_build_script() -> Vec<Module> {
    println!("cargo::rerun-if-env-changed={FOLDER}");
    let modules = modules(&folder()).unwrap_or_else(|error| panic!("{error}"));
    for module in &modules {
        println!("cargo::rerun-if-changed={}", module.path.display());
    }
    modules
}

/// For a build script: writes `OUT_DIR/modules.rs`, which declares each module at its path.
///
/// # Panics
/// If the file cannot be written.
pub fn declare<'a>(modules: impl IntoIterator<Item = (&'a str, &'a Path)>) {
    let declarations: String = modules
        .into_iter()
        .map(|(name, path)| format!("#[path = {path:?}]\npub mod {name};\n"))
        .collect();
    write_out("modules.rs", &declarations);
}

/// For a build script: writes a file into `OUT_DIR` and answers its path.
///
/// # Panics
/// If the file cannot be written.
pub fn write_out(name: &str, text: &str) -> PathBuf {
    let path =
        PathBuf::from(std::env::var_os("OUT_DIR").expect("a build script has OUT_DIR")).join(name);
    fs::write(&path, text).unwrap_or_else(|error| panic!("{}: {error}", path.display()));
    path
}

#[cfg(test)]
mod tests {
    use super::{MODULES, check, folder, module, modules};
    use std::path::Path;

    #[test]
    fn the_known_sources_pass() {
        let names: Vec<&str> = modules(&folder())
            .unwrap()
            .iter()
            .map(|module| module.name)
            .collect();
        assert_eq!(names, MODULES.map(|(name, _)| name));
    }

    #[test]
    fn a_changed_text_is_refused() {
        for (module, (_, digest)) in modules(&folder()).unwrap().iter().zip(MODULES) {
            let changed = format!("{}\n", module.text);
            let error = check(module.name, changed.as_bytes(), digest).unwrap_err();
            assert!(error.starts_with(&format!("{} is not the known source", module.name)));
        }
    }

    #[test]
    fn a_changed_hash_is_refused() {
        for (name, digest) in MODULES {
            let changed = digest.chars().rev().collect::<String>();
            assert!(
                module(&folder(), name, &changed)
                    .unwrap_err()
                    .contains(digest)
            );
        }
    }

    #[test]
    fn a_missing_folder_is_named() {
        let error = modules(Path::new("no-such-folder")).unwrap_err();
        assert!(error.contains("no-such-folder") && error.contains("GORVASK_RUSTDL"));
    }
}
