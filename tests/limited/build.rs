mod replacements;

use std::path::PathBuf;

fn main() {
    let copies: Vec<(&str, PathBuf)> = source::for_build_script()
        .iter()
        .map(|module| {
            let file = format!("{}.rs", module.name);
            let text = source::replace(&module.text, &file, replacements::of(module.name));
            (
                module.name,
                source::write_out(&file, &text.unwrap_or_else(|error| panic!("{error}"))),
            )
        })
        .collect();
    source::declare(copies.iter().map(|(name, path)| (*name, path.as_path())));
}
