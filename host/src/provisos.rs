//! Whether no axiom of the kinds 21 to 31 is lost or weakened.

use std::fmt;

use crate::atom::ClassId;
use crate::deferral::Deferral;

/// Why the second half of the promise may not be given for an accepted deck. It says that no axiom of the kinds 21 to 31 is lost
/// or weakened: where all clauses hold and the deck's inverse-role axioms are satisfied, each of them is. It is promised where
/// nothing was deferred, no class is marked as data key, and no at-most atom names a fresh class or the deck has option 4;
/// `docs/MEANING.md` has it in full. The first half, that no clause says too much, is promised for every accepted deck.
#[derive(Clone, Debug, Default, PartialEq, Eq, Hash)]
#[non_exhaustive]
pub struct Provisos {
    /// What gave no clause, in the order in which it arose.
    pub deferrals: Vec<Deferral>,
    /// The classes that the deck marks as data keys, rising.
    pub data_keys: Vec<ClassId>,
    /// The first clause, counted from 0, that has an at-most atom over a fresh class; none with option 4.
    pub fresh_at_most: Option<usize>,
}

impl Provisos {
    /// Whether it is promised.
    #[must_use]
    pub fn are_met(&self) -> bool {
        self.deferrals.is_empty() && self.data_keys.is_empty() && self.fresh_at_most.is_none()
    }

    /// Each deferral with the number of those right behind it that are equal.
    fn runs(&self) -> impl Iterator<Item = (Deferral, usize)> {
        let runs = self.deferrals.chunk_by(|a, b| a == b);
        runs.map(|run| (run[0], run.len()))
    }

    fn reasons(&self) -> Vec<String> {
        let deferral = |(deferral, times): (Deferral, usize)| match times {
            1 => deferral.to_string(),
            _ => format!("{deferral}, {times} times"),
        };
        let mut reasons: Vec<String> = self.runs().map(deferral).collect();
        let key = |class| format!("class {class} is a data key");
        reasons.extend(self.data_keys.iter().map(key));
        let at_most = |clause| format!("clause {clause} has an at-most over a fresh class");
        reasons.extend(self.fresh_at_most.map(at_most));
        reasons
    }
}

/// One line: that it is promised, or each reason why not.
impl fmt::Display for Provisos {
    fn fmt(&self, f: &mut fmt::Formatter<'_>) -> fmt::Result {
        if self.are_met() {
            return f
                .write_str("promised whole: no axiom of the kinds 21 to 31 is lost or weakened");
        }
        write!(f, "not promised whole: {}", self.reasons().join("; "))
    }
}

#[cfg(test)]
mod tests {
    use super::Provisos;
    use crate::deferral::Deferral;

    fn deferral(line: u32, kind: u32) -> Deferral {
        Deferral::of_words([line, kind]).expect("a deferral")
    }

    #[test]
    fn each_proviso_counts() {
        let met = Provisos::default();
        assert!(met.are_met());
        assert_eq!(
            met.to_string(),
            "promised whole: no axiom of the kinds 21 to 31 is lost or weakened"
        );
        for not in [
            Provisos {
                deferrals: vec![deferral(3, 4)],
                ..met.clone()
            },
            Provisos {
                data_keys: vec![0],
                ..met.clone()
            },
            Provisos {
                fresh_at_most: Some(0),
                ..met.clone()
            },
        ] {
            assert!(!not.are_met());
            assert!(not.to_string().starts_with("not promised whole: "));
        }
    }

    #[test]
    fn one_line_has_every_reason() {
        let provisos = Provisos {
            deferrals: vec![
                deferral(6, 1),
                deferral(6, 1),
                deferral(6, 4),
                deferral(0, 9),
            ],
            data_keys: vec![2, 11],
            fresh_at_most: Some(4),
        };
        assert_eq!(
            provisos.to_string(),
            "not promised whole: line 6: no rule says of two of the disjoint concepts that nothing is both \
             (disjoint-antecedent), 2 times; line 6: the chain has not two parts and gave no rule (role-chain-len-ne-2); \
             reflexive roles would give more than 4,096 further rules, and those beyond are left out (reflexive-derived-cap); \
             class 2 is a data key; class 11 is a data key; clause 4 has an at-most over a fresh class"
        );
    }
}
