//! Exact replacements in a source text.

/// `find` stands exactly `times` times in the text; each becomes `put`.
#[derive(Clone, Copy, Debug)]
pub struct Replacement {
    pub find: &'static str,
    pub times: usize,
    pub put: &'static str,
}

/// Shorthand for a text that stands once.
#[must_use]
pub const fn once(find: &'static str, put: &'static str) -> Replacement {
    Replacement {
        find,
        times: 1,
        put,
    }
}

/// `text` after the replacements, in their order.
///
/// # Errors
/// If a text does not stand exactly as often as its replacement says.
pub fn replace(text: &str, file: &str, replacements: &[Replacement]) -> Result<String, String> {
    let mut text = text.to_owned();
    for Replacement { find, times, put } in replacements {
        let found = text.matches(find).count();
        if found != *times {
            return Err(format!(
                "{file}: expected {times} of this text, found {found}:\n{find}"
            ));
        }
        text = text.replace(find, put);
    }
    Ok(text)
}

#[cfg(test)]
mod tests {
    use super::{Replacement, once, replace};

    #[test]
    fn replaces_each() {
        let twice = Replacement {
            find: "b",
            times: 2,
            put: "x",
        };
        assert_eq!(
            replace("abcb", "file", &[twice, once("c", "-")]),
            Ok("ax-x".to_owned())
        );
    }

    #[test]
    fn refuses_too_few_and_too_many() {
        assert!(
            replace("ac", "file", &[once("b", "x")])
                .unwrap_err()
                .starts_with("file: expected 1")
        );
        assert!(
            replace("abcb", "file", &[once("b", "x")])
                .unwrap_err()
                .contains("found 2")
        );
    }
}
