//! What gave no clause.

use std::fmt;

/// An axiom, or a part of one, that gave no clause.
#[derive(Clone, Copy, Debug, PartialEq, Eq, Hash)]
pub struct Deferral {
    /// The axiom's line, from 1; none for [`DeferralKind::ReflexiveDerivedCap`].
    pub line: Option<u32>,
    /// What was deferred.
    pub kind: DeferralKind,
}

impl Deferral {
    /// The deferral with these two words, line and kind.
    #[must_use]
    pub fn of_words([line, kind]: [u32; 2]) -> Option<Self> {
        Some(Self {
            line: (line > 0).then_some(line),
            kind: DeferralKind::of_number(kind)?,
        })
    }
}

/// The line, what was left out, and the kind's name.
impl fmt::Display for Deferral {
    fn fmt(&self, f: &mut fmt::Formatter<'_>) -> fmt::Result {
        if let Some(line) = self.line {
            write!(f, "line {line}: ")?;
        }
        write!(f, "{} ({})", self.kind.words(), self.kind.name())
    }
}

/// The kinds of deferral, each with its number in the table.
#[derive(Clone, Copy, Debug, PartialEq, Eq, PartialOrd, Ord, Hash)]
#[repr(u8)]
#[non_exhaustive]
pub enum DeferralKind {
    /// A pair of disjoint concepts.
    DisjointAntecedent = 1,
    /// That a member is part of its disjoint union.
    DisjointUnionMember = 2,
    /// That a disjoint union has no more than its members.
    DisjointUnionCovering = 3,
    /// A role chain that has not two parts.
    RoleChainLenNe2 = 4,
    /// An inclusion's left side.
    Antecedent = 5,
    /// An alternative of a right side.
    HeadOrDisjunct = 6,
    /// The filler of a right side's Some.
    HeadExistsInner = 7,
    /// The negation of a compound concept on a right side.
    HeadNotNonatomic = 8,
    /// What reflexive roles would give beyond 4,096 clauses.
    ReflexiveDerivedCap = 9,
}

impl DeferralKind {
    /// All kinds, in the order of their numbers.
    pub const ALL: [Self; 9] = [
        Self::DisjointAntecedent,
        Self::DisjointUnionMember,
        Self::DisjointUnionCovering,
        Self::RoleChainLenNe2,
        Self::Antecedent,
        Self::HeadOrDisjunct,
        Self::HeadExistsInner,
        Self::HeadNotNonatomic,
        Self::ReflexiveDerivedCap,
    ];

    /// The kind of a number, 1 to 9.
    #[must_use]
    pub fn of_number(number: u32) -> Option<Self> {
        Self::ALL.into_iter().find(|kind| kind.number() == number)
    }

    /// The kind's number.
    #[must_use]
    pub fn number(self) -> u32 {
        u32::from(self as u8)
    }

    /// The name that the kind has in rustdl.
    #[must_use]
    pub fn name(self) -> &'static str {
        match self {
            Self::DisjointAntecedent => "disjoint-antecedent",
            Self::DisjointUnionMember => "disjoint-union-member",
            Self::DisjointUnionCovering => "disjoint-union-covering",
            Self::RoleChainLenNe2 => "role-chain-len-ne-2",
            Self::Antecedent => "antecedent",
            Self::HeadOrDisjunct => "head-or-disjunct",
            Self::HeadExistsInner => "head-exists-inner",
            Self::HeadNotNonatomic => "head-not-nonatomic",
            Self::ReflexiveDerivedCap => "reflexive-derived-cap",
        }
    }

    /// What was left out.
    #[must_use]
    pub fn words(self) -> &'static str {
        match self {
            Self::DisjointAntecedent => {
                "no rule says of two of the disjoint concepts that nothing is both"
            }
            Self::DisjointUnionMember => {
                "no rule says that a member of the union is part of it, nor that it shares nothing with the others"
            }
            Self::DisjointUnionCovering => {
                "no rule says that the union has no more than its members"
            }
            Self::RoleChainLenNe2 => "the chain has not two parts and gave no rule",
            Self::Antecedent => {
                "the inclusion gave no rule, since its left side has over 64 alternatives"
            }
            Self::HeadOrDisjunct => "an alternative of the right side gave no rule",
            Self::HeadExistsInner => "the filler of the right side's Some gave no rule",
            Self::HeadNotNonatomic => "a negated compound concept on the right side gave no rule",
            Self::ReflexiveDerivedCap => {
                "reflexive roles would give more than 4,096 further rules, and those beyond are left out"
            }
        }
    }
}

#[cfg(test)]
mod tests {
    use super::{Deferral, DeferralKind};

    #[test]
    fn kinds_are_numbered_from_one() {
        for (number, kind) in (1..).zip(DeferralKind::ALL) {
            assert_eq!(kind.number(), number);
            assert_eq!(DeferralKind::of_number(number), Some(kind));
        }
        assert_eq!(DeferralKind::of_number(0), None);
        assert_eq!(DeferralKind::of_number(10), None);
    }

    #[test]
    fn each_kind_has_words_and_a_name_of_its_own() {
        for (place, kind) in DeferralKind::ALL.into_iter().enumerate() {
            for other in &DeferralKind::ALL[..place] {
                assert!(kind.words() != other.words() && kind.name() != other.name());
            }
        }
    }

    #[test]
    fn a_record_is_line_and_kind() {
        let chain = Deferral::of_words([6, 4]).expect("a deferral");
        assert_eq!(chain.line, Some(6));
        assert_eq!(
            chain.to_string(),
            "line 6: the chain has not two parts and gave no rule (role-chain-len-ne-2)"
        );
        let cap = Deferral::of_words([0, 9]).expect("a deferral");
        assert_eq!(
            (cap.line, cap.kind),
            (None, DeferralKind::ReflexiveDerivedCap)
        );
        assert_eq!(Deferral::of_words([6, 0]), None);
    }
}
