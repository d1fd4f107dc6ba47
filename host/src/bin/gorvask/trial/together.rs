//! What the two verdicts on one state mean together: the promise about meaning, as a user meets it.

use gorvask::{Header, Provisos, Test, Trial, Tried};

use super::axiom;
use crate::input::Input;

/// The kind of inverse-role axioms, which clauses take as given.
const INVERSE: u32 = 32;

/// What is known of the two verdicts.
#[derive(Default)]
pub struct Together {
    axioms: Option<Axioms>,
    clauses: Option<Clauses>,
}

/// The verdict on the axioms.
#[derive(Clone, Copy)]
enum Axioms {
    Hold,
    /// The first broken one's kind, and whether an inverse-role axiom stands behind it.
    Broken {
        kind: u32,
        inverse_behind: bool,
    },
}

/// The verdict on the clauses, and what the run says of the promise.
struct Clauses {
    hold: bool,
    provisos: Provisos,
    /// The ids of the fresh classes, from the first on, and how many.
    fresh: (u32, u32),
}

impl Together {
    /// Takes a verdict.
    pub fn take(&mut self, test: Test, trial: &Trial<'_>, deck: &Input) {
        match (test, &trial.tried) {
            (Test::Axioms, Tried::Holds) => self.axioms = Some(Axioms::Hold),
            (Test::Axioms, Tried::Broken { number, .. }) => {
                let kind = axiom::kind(deck, *number).map_or(0, |kind| kind.number);
                let inverse_behind = axiom::stands_behind(deck, *number, INVERSE);
                self.axioms = Some(Axioms::Broken {
                    kind,
                    inverse_behind,
                });
            }
            (Test::Clauses, tried) => {
                let Header {
                    classes,
                    individuals,
                    ..
                } = trial.clauses.header();
                self.clauses = Some(Clauses {
                    hold: *tried == Tried::Holds,
                    provisos: trial.clauses.provisos(),
                    fresh: (classes + individuals, trial.clauses.fresh_ids()),
                });
            }
        }
    }

    /// A line, or nothing where there are not both verdicts.
    pub fn words(&self) -> String {
        match (self.axioms, &self.clauses) {
            (Some(axioms), Some(clauses)) => format!("together: {}\n", clauses.with(axioms)),
            _ => String::new(),
        }
    }
}

impl Clauses {
    fn with(&self, axioms: Axioms) -> String {
        match (axioms, self.hold) {
            (Axioms::Hold, true) => {
                "the state keeps every rule, as axioms and as clauses".to_owned()
            }
            (Axioms::Hold, false) => format!(
                "the state keeps every rule, and only its lines 51 of fresh classes ({}) are at fault: with other sets for \
                 these alone every clause holds",
                self.fresh()
            ),
            (Axioms::Broken { kind, .. }, true) => self.only_axioms(kind),
            (
                Axioms::Broken {
                    kind,
                    inverse_behind,
                },
                false,
            ) => self.both_broken(kind, inverse_behind),
        }
    }

    /// An axiom of this kind is broken, and no clause.
    fn only_axioms(&self, kind: u32) -> String {
        match kind {
            INVERSE => "the clauses take inverse roles (kind 32) as given: no clause says such an axiom".to_owned(),
            33.. => "no clause says an axiom of the kinds 33 to 36; a reasoner reads these from the deck".to_owned(),
            _ if self.provisos.are_met() => {
                "the state breaks an inverse-role axiom too (kind 32, on a later line), which the clauses take as given".to_owned()
            }
            _ => format!("the clauses need not say every rule of this deck; it is {}", self.provisos),
        }
    }

    /// An axiom of this kind is broken, and a clause.
    fn both_broken(&self, kind: u32, inverse_behind: bool) -> String {
        let (_, fresh) = self.fresh;
        if kind < INVERSE && !inverse_behind && self.provisos.are_met() && fresh > 0 {
            return format!(
                "the state breaks a rule that the clauses say too: whatever its lines 51 of fresh classes ({}) are, some \
                 clause is broken",
                self.fresh()
            );
        }
        match fresh {
            0 => "no class is fresh, so that where every axiom holds every clause does: mend the axiom first".to_owned(),
            _ => format!(
                "mend the axiom first: where every axiom holds, only lines 51 of fresh classes ({}) can still break a clause",
                self.fresh()
            ),
        }
    }

    /// Which ids the fresh classes have.
    fn fresh(&self) -> String {
        match self.fresh {
            (first, 0 | 1) => format!("id {first}"),
            (first, count) => format!("ids {first} to {}", first + count - 1),
        }
    }
}

#[cfg(test)]
mod tests {
    use gorvask::Provisos;

    use super::{Axioms, Clauses, Together};

    const UNMET: &str = "not promised whole: class 3 is a data key";

    fn words(axioms: Axioms, hold: bool, is_promised: bool, fresh: u32) -> String {
        let mut provisos = Provisos::default();
        if !is_promised {
            provisos.data_keys.push(3);
        }
        let clauses = Clauses {
            hold,
            provisos,
            fresh: (14, fresh),
        };
        clauses.with(axioms)
    }

    fn broken(kind: u32, inverse_behind: bool) -> Axioms {
        Axioms::Broken {
            kind,
            inverse_behind,
        }
    }

    #[test]
    fn axioms_that_hold() {
        let whole = "the state keeps every rule, as axioms and as clauses";
        assert_eq!(words(Axioms::Hold, true, false, 2), whole);
        let fresh = words(Axioms::Hold, false, false, 2);
        assert!(fresh.contains("only its lines 51 of fresh classes (ids 14 to 15) are at fault"));
        assert!(words(Axioms::Hold, false, true, 1).contains("(id 14) are at fault"));
    }

    #[test]
    fn clauses_that_hold() {
        for is_promised in [false, true] {
            let inverse = words(broken(32, true), true, is_promised, 1);
            assert!(inverse.starts_with("the clauses take inverse roles (kind 32) as given"));
            for kind in 33..=36 {
                let unsaid = words(broken(kind, false), true, is_promised, 1);
                assert!(unsaid.starts_with("no clause says an axiom of the kinds 33 to 36"));
            }
        }
        for kind in 21..=31 {
            let later = words(broken(kind, true), true, true, 0);
            assert!(later.starts_with("the state breaks an inverse-role axiom too"));
            let lost = words(broken(kind, false), true, false, 0);
            assert!(lost.ends_with(UNMET), "{lost}");
        }
    }

    #[test]
    fn nothing_that_holds() {
        let said = "the state breaks a rule that the clauses say";
        assert!(words(broken(21, false), false, true, 1).starts_with(said));
        for other in [
            words(broken(21, true), false, true, 1),
            words(broken(21, false), false, false, 1),
            words(broken(32, false), false, true, 1),
            words(broken(36, false), false, true, 1),
        ] {
            assert!(other.starts_with("mend the axiom first: "), "{other}");
        }
        assert!(words(broken(21, false), false, true, 0).starts_with("no class is fresh"));
    }

    #[test]
    fn one_verdict_alone_says_nothing() {
        assert_eq!(Together::default().words(), "");
        let axioms = Some(Axioms::Hold);
        let alone = Together {
            axioms,
            clauses: None,
        };
        assert_eq!(alone.words(), "");
    }
}
