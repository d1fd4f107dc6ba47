//! The verdicts as rows of numbers.

use std::io::{self, Write};
use std::iter::once;

use gorvask::Tried;

use super::Answer;
use crate::row::row;

/// 48, the test (0 axioms, 1 clauses), and 0 where all hold, or 1, the first broken one and its elements; 49 for a refusal.
pub fn print(answer: &Answer, out: &mut dyn Write) -> io::Result<()> {
    for (test, tried) in &answer.verdicts {
        let front = [48, *test as u32];
        match tried {
            Tried::Holds => row(out, front.into_iter().chain(once(0)))?,
            Tried::Broken { number, elements } => {
                let broken = [1, *number].into_iter().chain(elements.iter().copied());
                row(out, front.into_iter().chain(broken))?;
            }
        }
    }
    match answer.refusal {
        Some(refusal) => row(out, [49, refusal.number(), refusal.line().unwrap_or(0)]),
        None => Ok(()),
    }
}

#[cfg(test)]
mod tests {
    use gorvask::{Refusal, Test, Tried};

    use super::{Answer, print};

    fn printed(verdicts: Vec<(Test, Tried)>, refusal: Option<Refusal>) -> String {
        let mut out = Vec::new();
        let words = String::new();
        let answer = Answer {
            verdicts,
            words,
            refusal,
            unpromised: None,
        };
        print(&answer, &mut out).expect("bytes take all");
        String::from_utf8(out).expect("a text")
    }

    fn broken(number: u32, elements: &[u32]) -> Tried {
        let elements = elements.to_vec();
        Tried::Broken { number, elements }
    }

    #[test]
    fn each_row_in_its_columns() {
        let both = vec![
            (Test::Axioms, Tried::Holds),
            (Test::Clauses, broken(38, &[2, 0, 1, 63])),
        ];
        assert_eq!(
            printed(both, None),
            "         48          0          0\n\
             \x20        48          1          1         38          2          0          1         63\n"
        );
        let assertion = vec![(Test::Axioms, broken(52, &[]))];
        let wide = Refusal::of_reply(14 << 32);
        assert_eq!(
            printed(assertion, wide),
            "         48          0          1         52\n\
             \x20        49         14          0\n"
        );
        let bad_line = Refusal::of_reply((13 << 32) + 7);
        assert_eq!(
            printed(Vec::new(), bad_line),
            "         49         13          7\n"
        );
    }
}
