//! No function that is exported to C has a `requires`, which no host could test.

use std::fs;
use std::path::Path;

/// The words of a text and its other characters one by one, without comments.
fn tokens(text: &str) -> Vec<String> {
    let mut tokens: Vec<String> = Vec::new();
    for line in text.lines() {
        let mut in_word = false;
        for c in line.split("//").next().unwrap_or_default().chars() {
            let is_of_word = c.is_alphanumeric() || c == '_';
            match tokens.last_mut() {
                Some(word) if is_of_word && in_word => word.push(c),
                _ if c.is_whitespace() => {}
                _ => tokens.push(c.into()),
            }
            in_word = is_of_word;
        }
    }
    tokens
}

/// How far a token leads into brackets, or out of them.
fn step(token: &str) -> i32 {
    match token {
        "(" | "[" | "{" => 1,
        ")" | "]" | "}" => -1,
        _ => 0,
    }
}

/// Whether `requires` stands outside all brackets before the next function.
fn asks(after_name: &[String]) -> bool {
    let mut depth = 0;
    for token in after_name {
        depth += step(token);
        match token.as_str() {
            "requires" if depth == 0 => return true,
            "fn" if depth == 0 => return false,
            _ => {}
        }
    }
    false
}

/// The functions that a text exports, and whether they ask for something.
fn exported(text: &str) -> Vec<(String, bool)> {
    let tokens = tokens(text);
    let mut found = Vec::new();
    for (place, token) in tokens.iter().enumerate() {
        let rest = &tokens[place + 1..];
        // The ABI may be left out.
        let ends = |token: &String| token == "fn" || step(token) != 0;
        if token == "extern"
            && let Some(end) = rest.iter().position(ends)
            && let ["fn", name] = [&rest[end], &rest[end + 1]].map(String::as_str)
        {
            found.push((name.to_owned(), asks(&rest[end + 2..])));
        }
    }
    found
}

/// The texts of all `.rt` files under a folder, with their names.
fn sources(folder: &Path, out: &mut Vec<(String, String)>) {
    for entry in fs::read_dir(folder).unwrap() {
        let path = entry.unwrap().path();
        if path.is_dir() {
            sources(&path, out);
        } else if path.extension().is_some_and(|extension| extension == "rt") {
            let text = fs::read_to_string(&path).unwrap();
            out.push((path.display().to_string(), text));
        }
    }
}

/// Those of every crate. They stand in its `src/` alone; beside it a proof may be writing.
fn all_sources() -> Vec<(String, String)> {
    let crates = Path::new(env!("CARGO_MANIFEST_DIR")).join("../../crates");
    let mut files = Vec::new();
    for entry in fs::read_dir(crates).unwrap() {
        sources(&entry.unwrap().path().join("src"), &mut files);
    }
    files
}

#[test]
fn no_exported_function_asks_for_anything() {
    let mut names = Vec::new();
    for (file, text) in all_sources() {
        let functions = exported(&text);
        if functions.is_empty() {
            continue;
        }
        let depth: i32 = tokens(&text).iter().map(|token| step(token)).sum();
        assert_eq!(depth, 0, "{file}: its brackets do not match");
        for (name, asks) in functions {
            assert!(!asks, "{file}: {name} is exported and has a requires");
            names.push(name);
        }
    }
    names.sort();
    // docs/ENTRIES.md lists them.
    assert_eq!(
        names,
        [
            "gorvask_clausify_with_stats",
            "gorvask_session_add",
            "gorvask_session_options",
            "gorvask_session_start",
            "gorvask_session_strike",
            "gorvask_session_take",
            "gorvask_try_axioms",
            "gorvask_try_clauses"
        ]
    );
}

/// Contracts of an exported function, which another one follows.
fn asks_with(contract: &str) -> bool {
    let next = "fn next(x: u32) -> u32\n    requires { x ≤ 3 }\n{\n    x\n}\n";
    let text = format!(
        "// extern \"C\" fn none(x: u32) requires\nfn first(x: u32)\n    requires {{ x ≤ 3 }}\n{{\n}}\n\
         #[unsafe(no_mangle)]\npub extern \"C\" fn of_two(\n    x: &[u8],\n    y: u32,\n) -> u32{contract}\n{{\n    y\n}}\n\n{next}"
    );
    let found = exported(&text);
    assert_eq!(found.len(), 1, "{found:?}");
    assert_eq!(found[0].0, "of_two");
    found[0].1
}

#[test]
fn a_requires_is_seen() {
    for contract in [
        "\n    requires { y ≤ 3 }",
        " requires { y ≤ 3 }",
        "\n    requires small { y ≤ 3 }",
        "\n    requires* { y ≤ 3 }",
        "\n    requires* small { y ≤ 3 }",
        "\n    requires\n    {\n        y ≤ 3\n    }",
        "\n    ensures { result ≡ y }\n    requires { y ≤ 3 }",
        "\n    ensures { let n = y in result ≡ n }\n    requires { y ≤ 3 }",
        "\n    ghost n { ℕ }\n    requires { n ≡ y }",
    ] {
        assert!(asks_with(contract), "{contract}");
    }
}

#[test]
fn another_one_is_not() {
    for contract in [
        "",
        "\n    ensures { result ≡ y }",
        "\n    ensures reply { result ≡ y }\n    ensures { requires result }",
        "\n    // requires { y ≤ 3 }\n    ensures { result ≡ y }",
    ] {
        assert!(!asks_with(contract), "{contract}");
    }
}
