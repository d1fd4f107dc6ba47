//! The host's diagnosis beside the library's reply.

use diagnosis::diagnose;

/// How the diagnosis of a deck has another number or line than the reply, or is missing, or too much. With tables of a
/// wrong size, refusal 1, the library does not look at the deck.
pub fn difference(reply: u64, deck: &[u8]) -> Option<String> {
    let expected = match (reply >> 32, reply & 0xffff_ffff) {
        (1, _) => return None,
        told @ (2..=9, _) => Some(told),
        _ => None,
    };
    let told = diagnose(deck);
    let found = told
        .as_ref()
        .map(|told| (told.number.into(), told.line.into()));
    (found != expected).then(|| format!("the diagnosis is {told:?}, and the reply {expected:?}"))
}

#[cfg(test)]
mod tests {
    use super::difference;

    /// Its second line names class 1, and there is one class.
    const DECK: &[u8] =
        b"          0          1          0          0          0\n          3          1\n";

    fn is_different(number: u64, line: u64) -> bool {
        difference((number << 32) + line, DECK).is_some()
    }

    #[test]
    fn another_number_or_line_is_seen() {
        assert!(!is_different(5, 2));
        assert!(is_different(4, 2) && is_different(6, 2));
        assert!(is_different(5, 1) && is_different(5, 3));
    }

    #[test]
    fn a_diagnosis_too_much_or_too_few_is_seen() {
        assert!(is_different(0, 0));
        assert!((10..=12).all(|number| is_different(number, 2)));
        let sound = &DECK[..56];
        assert_eq!(difference(0, sound), None);
        assert_eq!(difference(12 << 32, sound), None);
        assert!(difference((5 << 32) + 1, sound).is_some());
    }

    #[test]
    fn sizes_say_nothing_of_the_deck() {
        assert!(!is_different(1, 0));
    }
}
