//! What a run may use, what it has used, and the stages it has passed. One run at a time in a thread; while there is
//! none, the calls below do nothing.

use std::cell::RefCell;
use std::collections::BTreeMap;
use std::panic::{AssertUnwindSafe, catch_unwind, resume_unwind};

use crate::clause::DlClause;
use crate::ir::{ConceptExpr, ConceptPool};
use crate::ontology::Axiom;

/// The most that a run may use, or the most that it has used.
#[derive(Clone, Copy, Debug, Default, PartialEq, Eq)]
pub struct Limits {
    pub visits: usize,
    /// Records of the concept pool.
    pub pool: usize,
    /// Members of the pool's And and Or records, all together.
    pub members: usize,
    /// Atoms of one body or head in hand.
    pub in_hand: usize,
    pub clauses: usize,
    pub atoms: usize,
    pub deferrals: usize,
}

impl Limits {
    pub const NAMES: [&str; 7] = [
        "visits",
        "pool",
        "members",
        "in_hand",
        "clauses",
        "atoms",
        "deferrals",
    ];

    /// Document 01's limits, and tables of so many records.
    #[must_use]
    pub const fn tables([clauses, atoms, deferrals]: [usize; 3]) -> Self {
        Self {
            visits: 1_000_000,
            pool: 2_048,
            members: 16_384,
            in_hand: 256,
            clauses,
            atoms,
            deferrals,
        }
    }

    /// The tables that the lister lends.
    pub const LISTER: Self = Self::tables([1_024, 2_048, 256]);

    /// The largest tables that may be lent.
    pub const LARGEST: Self = Self::tables([65_536, 262_144, 65_536]);

    /// Records of the three tables: clauses, atoms, deferrals.
    #[must_use]
    pub const fn rooms(&self) -> [usize; 3] {
        [self.clauses, self.atoms, self.deferrals]
    }

    /// The limit of this name.
    pub fn named(&mut self, name: &str) -> Option<&mut usize> {
        match name {
            "visits" => Some(&mut self.visits),
            "pool" => Some(&mut self.pool),
            "members" => Some(&mut self.members),
            "in_hand" => Some(&mut self.in_hand),
            "clauses" => Some(&mut self.clauses),
            "atoms" => Some(&mut self.atoms),
            "deferrals" => Some(&mut self.deferrals),
            _ => None,
        }
    }
}

/// What the original reads from its environment, and options 4 and 8.
#[derive(Clone, Copy, Debug, Default)]
pub struct Options {
    pub decompose: bool,
    pub card_disjunct_atoms: bool,
    /// A fresh class that names the filler of an at-most is made equal to it.
    pub equal_names: bool,
    /// A role is followed until its id is no key of the map of inverses.
    pub follow_roles: bool,
}

#[derive(Clone, Copy, Debug)]
pub struct Settings {
    pub limits: Limits,
    pub options: Options,
    /// The line of the first axiom; the others follow.
    pub first_line: u32,
    pub keep_stages: bool,
}

/// Refusal 10, 11 or 12, with the axiom's line, or 0 after the last axiom.
#[derive(Clone, Copy, Debug, PartialEq, Eq)]
pub struct Refused {
    pub number: u32,
    pub line: u32,
}

/// The clausifier's passes, in their order: each axiom by itself, `apply_reflexive_roles`, `add_counted_self_loops`,
/// and the last, after which the clauses are the answer. A pass that had nothing to do is passed all the same.
#[derive(Clone, Copy, Debug, PartialEq, Eq, PartialOrd, Ord)]
pub enum Pass {
    Axioms,
    Reflexive,
    Loops,
    Last,
}

/// What a run had made at the ends of its passes, as far as it came.
#[derive(Clone, Debug, Default)]
pub struct Stages {
    /// The pool's records and the axioms after `nnf_axioms`.
    pub normalised: Option<(Vec<ConceptExpr>, Vec<Axiom>)>,
    pub passes: BTreeMap<Pass, Passed>,
}

/// What a run had made at the end of a pass.
#[derive(Clone, Debug, Default)]
pub struct Passed {
    pub clauses: Vec<DlClause>,
    /// Axiom line and kind.
    pub deferrals: Vec<(u32, u32)>,
    /// Fresh class ids taken.
    pub fresh: usize,
    pub visits: usize,
    /// Records of the concept pool, and members of its And and Or records.
    pub concepts: usize,
    pub members: usize,
}

/// What came of option 4: limits are fillers of an at-most that a fresh class names.
#[derive(Clone, Copy, Debug, Default, PartialEq, Eq)]
pub struct Settled {
    /// Limits that waited.
    pub limits: usize,
    /// Those of them that were named while others were settled.
    pub on_the_way: usize,
    /// Deferrals of a filler below its name.
    pub deferrals: usize,
    /// Settling is under way: there a refused run has ended.
    pub under_way: bool,
    /// The last concept that settling made, or was to make, is a name.
    pub at_a_name: bool,
}

#[derive(Clone, Debug, Default)]
pub struct Report {
    /// The greatest number that each limit was tested against.
    pub most: Limits,
    /// How many clauses there were after each pass, as far as the run came.
    pub lengths: BTreeMap<Pass, usize>,
    /// Fresh class ids taken.
    pub fresh: usize,
    /// Axiom line and kind.
    pub deferrals: Vec<(u32, u32)>,
    pub settled: Settled,
    /// The most steps that a role was followed.
    pub steps: usize,
    pub stages: Stages,
}

struct Run {
    settings: Settings,
    line: u32,
    concepts: usize,
    members: usize,
    atoms: usize,
    report: Report,
}

thread_local! {
    static RUN: RefCell<Option<Run>> = const { RefCell::new(None) };
}

/// Document 01's kinds of deferral, from 1.
const KINDS: [&str; 9] = [
    "disjoint-antecedent",
    "disjoint-union-member",
    "disjoint-union-covering",
    "role-chain-len-ne-2",
    "antecedent",
    "head-or-disjunct",
    "head-exists-inner",
    "head-not-nonatomic",
    "reflexive-derived-cap",
];

/// Does `work` as a run that begins with `pool`.
pub fn run<T>(
    settings: Settings,
    pool: &ConceptPool,
    work: impl FnOnce() -> T,
) -> (Result<T, Refused>, Report) {
    let members = pool.iter_exprs().map(list_members).sum();
    RUN.set(Some(Run {
        settings,
        line: 0,
        concepts: pool.iter_exprs().count(),
        members,
        atoms: 0,
        report: Report::default(),
    }));
    let outcome = catch_unwind(AssertUnwindSafe(work));
    let run = RUN.take().expect("the run that was begun");
    let answer = outcome.map_err(|payload| match payload.downcast::<Refused>() {
        Ok(refused) => *refused,
        Err(panic) => resume_unwind(panic),
    });
    (answer, run.report)
}

/// Has the run under way take note of something; a refusal's number ends it.
fn event(note: impl FnOnce(&mut Run) -> Result<(), u32>) {
    let refused = RUN.with_borrow_mut(|run| {
        let run = run.as_mut()?;
        let number = note(run).err()?;
        Some(Refused {
            number,
            line: run.line,
        })
    });
    if let Some(refused) = refused {
        resume_unwind(Box::new(refused));
    }
}

/// `number`, if `used` passes `limit`.
fn test(number: u32, used: usize, limit: usize, most: &mut usize) -> Result<(), u32> {
    if used > limit {
        return Err(number);
    }
    *most = used.max(*most);
    Ok(())
}

/// Tests a clause list of this size against the ends of the two tables.
fn test_tables(run: &mut Run, clauses: usize, atoms: usize) -> Result<(), u32> {
    let (limits, most) = (&run.settings.limits, &mut run.report.most);
    test(12, clauses, limits.clauses, &mut most.clauses)?;
    test(12, atoms, limits.atoms, &mut most.atoms)
}

/// Options of the run under way.
#[must_use]
pub fn options() -> Options {
    RUN.with_borrow(|run| {
        run.as_ref()
            .map_or_else(Options::default, |run| run.settings.options)
    })
}

/// Axiom `index` is normalised or clausified from here on.
pub fn axiom(index: usize) {
    event(|run| {
        run.line =
            run.settings.first_line + u32::try_from(index).expect("a deck's lines fit in u32");
        Ok(())
    });
}

/// A visit is about to begin.
pub fn visit() {
    event(|run| {
        let most = &mut run.report.most.visits;
        test(10, *most + 1, run.settings.limits.visits, most)
    });
}

/// A pool of `len` records is about to take one more.
pub fn intern(len: usize, expr: &ConceptExpr) {
    event(|run| {
        let (limits, most) = (&run.settings.limits, &mut run.report.most);
        run.report.settled.at_a_name = matches!(expr, ConceptExpr::Atomic(_));
        test(11, len + 1, limits.pool, &mut most.pool)?;
        run.concepts = len + 1;
        run.members += list_members(expr);
        test(11, run.members, limits.members, &mut most.members)
    });
}

fn list_members(expr: &ConceptExpr) -> usize {
    match expr {
        ConceptExpr::And(list) | ConceptExpr::Or(list) => list.len(),
        _ => 0,
    }
}

/// A body or head is about to have so many atoms.
pub fn in_hand(atoms: usize) {
    event(|run| {
        test(
            12,
            atoms,
            run.settings.limits.in_hand,
            &mut run.report.most.in_hand,
        )
    });
}

/// A fresh class id is taken.
pub fn fresh() {
    event(|run| {
        run.report.fresh += 1;
        Ok(())
    });
}

/// An at-most filler and its name, a fresh class, wait.
pub fn awaits() {
    event(|run| {
        let settled = &mut run.report.settled;
        settled.limits += 1;
        settled.on_the_way += usize::from(settled.under_way);
        Ok(())
    });
}

/// Whether what waits after an axiom is being settled.
pub fn settling(under_way: bool) {
    event(|run| {
        run.report.settled.under_way = under_way;
        Ok(())
    });
}

/// A role has been followed so many steps.
pub fn followed(steps: usize) {
    event(|run| {
        run.report.steps = steps.max(run.report.steps);
        Ok(())
    });
}

/// A construct is about to be deferred.
pub fn defer(kind: &str) {
    let number = 1 + KINDS
        .iter()
        .position(|known| *known == kind)
        .expect("a known kind of deferral");
    event(|run| {
        let Report {
            most,
            deferrals,
            settled,
            ..
        } = &mut run.report;
        test(
            12,
            deferrals.len() + 1,
            run.settings.limits.deferrals,
            &mut most.deferrals,
        )?;
        settled.deferrals += usize::from(settled.under_way);
        deferrals.push((run.line, u32::try_from(number).expect("a kind is below 10")));
        Ok(())
    });
}

/// Pushes a clause where the tables have room.
pub fn push(clauses: &mut Vec<DlClause>, clause: DlClause) {
    event(|run| {
        run.atoms += clause.body.len() + clause.head.len();
        test_tables(run, clauses.len() + 1, run.atoms)
    });
    clauses.push(clause);
}

/// Decomposition has finished its list.
pub fn finished(clauses: &[DlClause]) {
    let atoms = clauses
        .iter()
        .map(|clause| clause.body.len() + clause.head.len())
        .sum();
    event(|run| test_tables(run, clauses.len(), atoms));
}

/// All axioms are normalised.
pub fn normalised(pool: &ConceptPool, axioms: &[Axiom]) {
    event(|run| {
        if run.settings.keep_stages {
            run.report.stages.normalised =
                Some((pool.iter_exprs().cloned().collect(), axioms.to_vec()));
        }
        Ok(())
    });
}

/// A pass has made these clauses; no axiom is under way from here on.
pub fn passed(pass: Pass, clauses: &[DlClause]) {
    event(|run| {
        run.line = 0;
        let report = &mut run.report;
        report.lengths.insert(pass, clauses.len());
        if run.settings.keep_stages {
            let passed = Passed {
                clauses: clauses.to_vec(),
                deferrals: report.deferrals.clone(),
                fresh: report.fresh,
                visits: report.most.visits,
                concepts: run.concepts,
                members: run.members,
            };
            report.stages.passes.insert(pass, passed);
        }
        Ok(())
    });
}
