//! Elements for variables, in words.

use gorvask::Names;

/// `x = R1 (element 2), y1 = element 4`; nothing where there is no element.
pub fn assigned(
    variables: impl IntoIterator<Item = String>,
    elements: &[u32],
    names: &Names,
) -> String {
    let each = variables.into_iter().zip(elements);
    let words = each.map(|(variable, &element)| format!("{variable} = {}", called(element, names)));
    words.collect::<Vec<_>>().join(", ")
}

fn called(element: u32, names: &Names) -> String {
    match names.element(element) {
        Some(name) => format!("{name} (element {element})"),
        None => format!("element {element}"),
    }
}

#[cfg(test)]
mod tests {
    use gorvask::Names;

    use super::assigned;

    #[test]
    fn with_names_and_without() {
        let names: Names = "element 2 R1\nclass 4 P1\n".parse().expect("names");
        let variables = || ["x", "y1"].map(str::to_owned);
        assert_eq!(
            assigned(variables(), &[2, 4], &names),
            "x = R1 (element 2), y1 = element 4"
        );
        assert_eq!(assigned(variables(), &[], &names), "");
    }
}
