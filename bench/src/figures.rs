//! Figures and tables in Markdown.

use std::borrow::Borrow;
use std::fmt::Write;

use crate::measure::Spread;
use crate::results::Range;

pub fn table_head(page: &mut String, names: &[impl Borrow<str>]) -> std::fmt::Result {
    writeln!(page, "| {} |", names.join(" | "))?;
    writeln!(page, "|---|{}", "--:|".repeat(names.len() - 1))
}

pub fn table_row(page: &mut String, cells: &[String]) -> std::fmt::Result {
    writeln!(page, "| {} |", cells.join(" | "))
}

/// Three digits that count.
pub fn figure(number: f64) -> String {
    let digits = match number {
        n if n >= 100.0 => 0,
        n if n >= 10.0 => 1,
        n if n >= 1.0 => 2,
        n if n >= 0.1 => 3,
        n if n >= 0.01 => 4,
        _ => 5,
    };
    format!("{number:.digits$}")
}

/// The median, and the middle half.
pub fn ratio(spread: Spread) -> String {
    format!(
        "{} ({} to {})",
        figure(spread.median),
        figure(spread.low),
        figure(spread.high)
    )
}

/// The least and the greatest of some runs.
pub fn runs((least, greatest): (f64, f64)) -> String {
    format!("{} to {}", figure(least), figure(greatest))
}

pub fn percent(share: f64) -> String {
    format!("{:.0} %", 100.0 * share)
}

#[expect(clippy::cast_precision_loss, reason = "a few digits are shown")]
pub fn millions(count: u64) -> String {
    figure(count as f64 / 1e6)
}

pub fn range((least, greatest): Range) -> String {
    if least == greatest {
        number(least)
    } else {
        format!("{} to {}", number(least), number(greatest))
    }
}

/// With a comma between thousands.
pub fn number(number: usize) -> String {
    let digits = number.to_string();
    let mut text = String::new();
    for (place, digit) in digits.chars().enumerate() {
        if place > 0 && (digits.len() - place).is_multiple_of(3) {
            text.push(',');
        }
        text.push(digit);
    }
    text
}

#[cfg(test)]
mod tests {
    use super::{figure, number, range};

    #[test]
    fn figures_have_three_digits() {
        assert_eq!(
            [123.4, 12.34, 1.234, 0.1234, 0.01234].map(figure),
            ["123", "12.3", "1.23", "0.123", "0.0123"]
        );
    }

    #[test]
    fn thousands_are_parted() {
        assert_eq!(
            [5, 512, 1_024, 1_572_864].map(number),
            ["5", "512", "1,024", "1,572,864"]
        );
        assert_eq!(range((7, 7)), "7");
        assert_eq!(range((7, 9_000)), "7 to 9,000");
    }
}
