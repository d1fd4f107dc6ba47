//! What this command was built from.

/// Version, commit, and the toolchain that proved the library. The script `gorvask` sets the last two for the build.
pub fn text() -> String {
    format!(
        "gorvask {}\ncommit {}\nproved with {}\n",
        env!("CARGO_PKG_VERSION"),
        known(option_env!("GORVASK_COMMIT")),
        known(option_env!("GORVASK_TOOLCHAIN")),
    )
}

fn known(word: Option<&'static str>) -> &'static str {
    word.filter(|word| !word.is_empty()).unwrap_or("unknown")
}
