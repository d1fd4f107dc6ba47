//! A run's answer, as the lister prints it and as the lent tables hold it.

use deck::Refusal;
use deck::write::row;

/// A clause's atoms, each as document 01's six words.
#[derive(Clone, Debug, PartialEq, Eq)]
pub struct Clause {
    pub body: Vec<[u32; 6]>,
    pub head: Vec<[u32; 6]>,
}

impl Clause {
    /// Lines 41 and 42.
    pub fn write(&self, number: u32, out: &mut Vec<u8>) {
        row(out, &[41, number, length(&self.body), length(&self.head)]);
        for atom in self.body.iter().chain(&self.head) {
            row(out, &[&[42], &atom[..]].concat());
        }
    }
}

#[derive(Clone, Debug, PartialEq, Eq)]
pub struct Listing {
    pub clauses: Vec<Clause>,
    /// In the order of `ClauseStats`.
    pub stats: [u32; 8],
    /// Fresh class ids taken.
    pub fresh: u32,
    pub visits: u32,
    /// Axiom line and kind, in the order of the run.
    pub deferrals: Vec<(u32, u32)>,
}

impl Listing {
    /// Lines 41, 42 and 43.
    #[must_use]
    pub fn write(&self) -> Vec<u8> {
        let mut out = Vec::new();
        for (number, clause) in (0..).zip(&self.clauses) {
            clause.write(number, &mut out);
        }
        row(&mut out, &[&[43], &self.numbers()[..]].concat());
        out
    }

    /// The ten numbers of line 43.
    #[must_use]
    pub fn numbers(&self) -> [u32; 10] {
        let [a, b, c, d, e, f, g, h] = self.stats;
        [a, b, c, d, e, f, g, h, self.fresh, self.visits]
    }

    /// The records of the clause table.
    #[must_use]
    pub fn clause_table(&self) -> Vec<u32> {
        let mut first = 0;
        let mut words = Vec::with_capacity(3 * self.clauses.len());
        for clause in &self.clauses {
            let (body, head) = (length(&clause.body), length(&clause.head));
            words.extend([first, body, head]);
            first += body + head;
        }
        words
    }

    /// The records of the atom table.
    #[must_use]
    pub fn atom_table(&self) -> Vec<u32> {
        let clauses = self.clauses.iter();
        let atoms = clauses.flat_map(|clause| clause.body.iter().chain(&clause.head));
        atoms.flatten().copied().collect()
    }

    /// The records of the deferral table, in the order of the run.
    #[must_use]
    pub fn deferral_table(&self) -> Vec<u32> {
        self.deferrals
            .iter()
            .flat_map(|&(line, kind)| [line, kind])
            .collect()
    }
}

fn length(atoms: &[[u32; 6]]) -> u32 {
    crate::number(atoms.len())
}

#[derive(Clone, Debug, PartialEq, Eq)]
pub enum Answer {
    Accepted(Listing),
    Refused(Refusal),
    /// The deck has a Min 0 line, for which the original's pool has no record.
    CannotHold,
}

impl Answer {
    /// What the lister prints; `cannot hold` where the original has no answer.
    #[must_use]
    pub fn write(&self) -> Vec<u8> {
        self.write_by(Listing::write)
    }

    /// The deferrals, a line and a kind in each row, in the order of the run.
    #[must_use]
    pub fn write_deferrals(&self) -> Vec<u8> {
        self.write_by(|listing| {
            let mut out = Vec::new();
            for &(line, kind) in &listing.deferrals {
                row(&mut out, &[line, kind]);
            }
            out
        })
    }

    fn write_by(&self, accepted: impl FnOnce(&Listing) -> Vec<u8>) -> Vec<u8> {
        match self {
            Self::Accepted(listing) => accepted(listing),
            Self::Refused(refusal) => {
                let mut out = Vec::new();
                row(&mut out, &[49, refusal.number, refusal.line]);
                out
            }
            Self::CannotHold => b"cannot hold\n".to_vec(),
        }
    }
}
