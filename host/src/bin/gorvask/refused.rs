//! What is said after a refusal.

use gorvask::diagnosis::{Diagnosis, diagnose};
use gorvask::{Refusal, RefusalKind};

use crate::ended::{Failure, Status, tell};
use crate::input::Input;

/// The most bytes of a line that are shown.
const SHOWN: usize = 220;

/// The tables that were lent last.
#[derive(Clone, Copy)]
pub enum Lent {
    Largest,
    Lister,
}

impl Lent {
    fn words(self) -> &'static str {
        match self {
            Self::Largest => {
                "the largest tables were lent: 65,536 clauses, 262,144 atoms and 65,536 deferrals"
            }
            Self::Lister => "the lister's tables were lent: without --lister-tables they grow",
        }
    }
}

/// Lines on standard error: number, line, what is wrong, what to do, the line's text, and the cause where it is known.
pub fn explain(deck: &Input, refusal: Refusal, lent: Lent) -> Result<Status, Failure> {
    tell_refusal(deck, refusal)?;
    if refusal.kind() == RefusalKind::NoRoom {
        tell(lent.words())?;
    }
    if refusal.line().is_some() {
        tell_line(deck, refusal)?;
        tell_cause(diagnose(&deck.bytes), refusal)?;
    }
    Ok(Status::Refused)
}

/// Number and line, what is wrong, and what to do.
pub fn tell_refusal(input: &Input, refusal: Refusal) -> Result<(), Failure> {
    let number = refusal.number();
    let place = refusal
        .line()
        .map_or(String::new(), |line| format!(", line {line}"));
    tell(&format!(
        "{}: refused by number {number}{place}: {}",
        input.name,
        refusal.wrong()
    ))?;
    tell(&format!("to do: {}", refusal.remedy()))?;
    Ok(())
}

/// The text of the refusal's line, if it names one.
pub fn tell_line(input: &Input, refusal: Refusal) -> Result<(), Failure> {
    match refusal.line() {
        Some(line) => Ok(tell(&shown(input.what, line, input.line(line)))?),
        None => Ok(()),
    }
}

/// The cause, where a reading that nothing proves found what the library found.
pub fn tell_cause(diagnosis: Option<Diagnosis>, refusal: Refusal) -> Result<(), Failure> {
    match diagnosis.filter(|found| agrees(found, refusal)) {
        Some(found) => Ok(tell(&cause(&found))?),
        None => Ok(()),
    }
}

fn agrees(diagnosis: &Diagnosis, refusal: Refusal) -> bool {
    diagnosis.number == refusal.number() && diagnosis.line == refusal.line().unwrap_or(0)
}

fn cause(diagnosis: &Diagnosis) -> String {
    let column = diagnosis
        .column
        .map_or(String::new(), |column| format!("column {column}: "));
    let cause = &diagnosis.cause;
    format!("cause, by a reading that is not proved: {column}{cause}")
}

/// The line's text, all signs but plain ones escaped.
fn shown(what: &str, number: u32, line: Option<&[u8]>) -> String {
    match line {
        None => format!("the {what} is empty"),
        Some([]) => format!("line {number} is empty"),
        Some(line) if line.len() <= SHOWN => format!("line {number} is: {}", line.escape_ascii()),
        Some(line) => format!(
            "line {number} has {} bytes and begins: {}",
            line.len(),
            line[..SHOWN].escape_ascii()
        ),
    }
}

#[cfg(test)]
mod tests {
    use super::{Diagnosis, Refusal, agrees, cause, shown};

    #[test]
    fn a_line_as_it_is() {
        assert_eq!(
            shown("deck", 3, Some(b"         21          0")),
            "line 3 is:          21          0"
        );
        assert_eq!(shown("deck", 3, Some(b"\t21\r")), "line 3 is: \\t21\\r");
        assert_eq!(shown("deck", 3, Some(b"")), "line 3 is empty");
        assert_eq!(shown("state", 1, None), "the state is empty");
        let long = shown("deck", 7, Some(&[b'1'; 1_000]));
        assert_eq!(
            long,
            format!("line 7 has 1000 bytes and begins: {}", "1".repeat(220))
        );
    }

    #[test]
    fn a_cause_is_told_only_where_both_agree() {
        let diagnosis = |number, line| Diagnosis {
            number,
            line,
            column: Some(23),
            cause: "a tab".to_owned(),
        };
        let refusal = Refusal::of_reply((5 << 32) + 9).expect("a refusal");
        assert!(agrees(&diagnosis(5, 9), refusal));
        assert!(!agrees(&diagnosis(5, 8), refusal));
        assert!(!agrees(&diagnosis(4, 9), refusal));
        assert_eq!(
            cause(&diagnosis(5, 9)),
            "cause, by a reading that is not proved: column 23: a tab"
        );
    }
}
