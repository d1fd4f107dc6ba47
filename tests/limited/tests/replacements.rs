//! The copy can be made from the known sources alone.

#[path = "../replacements.rs"]
mod replacements;

use source::{Module, folder, modules, replace};

fn originals() -> Vec<Module> {
    modules(&folder()).unwrap()
}

#[test]
fn known_sources_pass() {
    for module in originals() {
        replace(&module.text, module.name, replacements::of(module.name)).unwrap();
    }
}

/// Without any one of the texts that are replaced the copy is not made.
#[test]
fn a_missing_text_is_refused() {
    for module in originals() {
        for replacement in replacements::of(module.name) {
            let changed = module.text.replacen(replacement.find, "", 1);
            let error = replace(&changed, module.name, replacements::of(module.name)).unwrap_err();
            assert!(
                error.starts_with(&format!("{}: expected", module.name)),
                "{error}"
            );
        }
    }
}

/// With one more of them the copy is not made either.
#[test]
fn a_repeated_text_is_refused() {
    for module in originals() {
        for replacement in replacements::of(module.name) {
            let changed = format!("{}{}", module.text, replacement.find);
            replace(&changed, module.name, replacements::of(module.name)).unwrap_err();
        }
    }
}
