//! `gorvask try` where there is a verdict.

use crate::common::{deck, row, with_fresh, with_fresh_state};
use crate::process::{Ran, Scratch, read, run, run_on};

const JUNCTION: &str = "examples/junction.deck";
const HELD: &str = "examples/junction.state";
const BROKEN: &str = "examples/junction-undetected.state";
const NAMES: &str = "--names=examples/junction.names";

fn ran(status: i32, out: &str) -> Ran {
    Ran {
        status: Some(status),
        out: out.to_owned(),
        err: String::new(),
    }
}

/// The tests of a deck and a state that are written here.
fn tried(name: &str, deck: &[u8], state: &[u8], options: &[&str]) -> Ran {
    let deck = Scratch::new(&format!("{name}.deck"), deck);
    let words = ["try", deck.path(), "-"];
    run_on(&[&words[..], options].concat(), state)
}

#[test]
fn a_state_that_holds() {
    let axioms = "axioms: all hold\n";
    let clauses = "clauses: all hold\n";
    let both = "together: the state keeps every rule, as axioms and as clauses\n";
    for (options, out) in [
        (&[][..], [axioms, clauses, both].concat()),
        (&["--axioms", "--clauses"], [axioms, clauses, both].concat()),
        (&["--axioms"], axioms.to_owned()),
        (&["--clauses", NAMES], clauses.to_owned()),
        (&["--rows"], row(&[48, 0, 0]) + &row(&[48, 1, 0])),
        (&["--rows", "--axioms"], row(&[48, 0, 0])),
        (&["--rows", "--clauses"], row(&[48, 1, 0])),
    ] {
        let words = [&["try", JUNCTION, HELD], options].concat();
        assert_eq!(run(&words), ran(0, &out), "{options:?}");
    }
}

#[test]
fn a_state_that_breaks_the_junction() {
    let rows = [row(&[48, 0, 1, 49, 2]), row(&[48, 1, 1, 33, 2, 4])];
    for (options, out) in [
        (&["--rows"][..], rows.concat()),
        (&["--rows", "--axioms"], rows[0].clone()),
        (&["--rows", "--clauses", NAMES], rows[1].clone()),
    ] {
        let words = [&["try", JUNCTION, BROKEN], options].concat();
        assert_eq!(run(&words), ran(5, &out), "{options:?}");
    }
    let numbers = run(&["try", "--clauses", JUNCTION, BROKEN]);
    let words = "clauses: clause 33 is broken: A11(x), r2(x,y1) → A6(y1)\n         x = element 2, y1 = element 4\n";
    assert_eq!(numbers, ran(5, words));
    let named = run(&["try", NAMES, JUNCTION, BROKEN]);
    let words = "axioms: line 49 is broken, kind 21: SubClassOf(Locked ObjectIntersectionOf(Route \
                 ObjectAllValuesFrom(calls-normal Normal) ObjectAllValuesFrom(calls-reverse Reverse)))\n\
                 \x20       x is in the first and not in the second: x = R1 (element 2)\n\
                 clauses: clause 33 is broken: Locked(x), calls-normal(x,y1) → Normal(y1)\n\
                 \x20        x = R1 (element 2), y1 = P1 (element 4)\n\
                 together: the state breaks a rule that the clauses say too: whatever its lines 51 of fresh classes (id 14) \
                 are, some clause is broken\n";
    assert_eq!(named, ran(5, words));
}

#[test]
fn fresh_classes_alone_at_fault() {
    let right = with_fresh_state(&[vec![51, 3, 1]]);
    let ran = tried("fresh-right", &with_fresh(), &right, &["--rows"]);
    assert_eq!(ran.out, row(&[48, 0, 0]) + &row(&[48, 1, 0]));
    let empty = with_fresh_state(&[]);
    let ran = tried("fresh-empty", &with_fresh(), &empty, &["--rows"]);
    assert_eq!(ran.out, row(&[48, 0, 0]) + &row(&[48, 1, 1, 2, 0]));
    assert_eq!(ran.status, Some(5));
    let ran = tried("fresh-words", &with_fresh(), &empty, &[]);
    assert_eq!(
        ran.out,
        "axioms: all hold\nclauses: clause 2 is broken: A0(x) → ∃r0.Q0(x)\n         x = element 0\n\
         together: the state keeps every rule, and only its lines 51 of fresh classes (id 3) are at fault: with other sets \
         for these alone every clause holds\n"
    );
}

/// A deck and a state in which an axiom is broken and no clause is.
struct Alone {
    name: &'static str,
    deck: &'static [&'static [u32]],
    state: &'static [&'static [u32]],
    /// What is said of the axiom, and of the two verdicts.
    axiom: &'static str,
    together: &'static str,
}

const ALONE: &[Alone] = &[
    Alone {
        name: "inverse",
        deck: &[&[0, 0, 0, 2, 3], &[32, 0, 2]],
        state: &[&[50, 3], &[52, 1, 2, 1]],
        axiom: "axioms: line 2 is broken, kind 32: InverseObjectProperties(r0 r1)\n        the first role relates x to y, or the \
                second y to x, and not both: x = element 1, y = element 2\n",
        together: "the clauses take inverse roles (kind 32) as given: no clause says such an axiom",
    },
    Alone {
        name: "chain",
        deck: &[&[0, 0, 0, 2, 3], &[27, 2, 0, 0, 0]],
        state: &[
            &[50, 4],
            &[52, 0, 0, 1, 1, 2, 1, 3, 2, 0, 3, 3],
            &[52, 1, 0, 0],
        ],
        axiom: "axioms: line 2 is broken, kind 27: SubObjectPropertyOf(ObjectPropertyChain(r0 r0 r0) r1)\n        each role of \
                the chain relates one to the next, and the role behind the chain does not relate the first to the last: y0 = \
                element 0, y1 = element 1, y2 = element 3, y3 = element 3\n",
        together: "the clauses need not say every rule of this deck; it is not promised whole: line 2: the chain has not two \
                   parts and gave no rule (role-chain-len-ne-2)",
    },
    Alone {
        name: "assertion",
        deck: &[&[0, 1, 2, 0, 3], &[3, 0], &[36, 0, 1]],
        state: &[&[50, 1], &[53, 0, 0], &[53, 1, 0]],
        axiom: "axioms: line 3 is broken, kind 36: ClassAssertion(A0 i1)\n        the individual is not in the class\n",
        together: "no clause says an axiom of the kinds 33 to 36; a reasoner reads these from the deck",
    },
    Alone {
        name: "later-inverse",
        deck: &[
            &[0, 2, 0, 2, 3],
            &[3, 0],
            &[3, 1],
            &[9, 2, 1],
            &[21, 0, 2],
            &[32, 0, 2],
        ],
        state: &[&[50, 2], &[51, 0, 0], &[51, 1, 1], &[52, 0, 1, 0]],
        axiom: "axioms: line 5 is broken, kind 21: SubClassOf(A0 ObjectSomeValuesFrom(r1 A1))\n        x is in the first and not \
                in the second: x = element 0\n",
        together: "the state breaks an inverse-role axiom too (kind 32, on a later line), which the clauses take as given",
    },
];

/// What is broken where no clause is, by kind, as far as there is one for it.
#[test]
fn axioms_alone_at_fault() {
    let text = |rows: &[&[u32]]| deck(&rows.iter().map(|row| row.to_vec()).collect::<Vec<_>>());
    for alone in ALONE {
        let Alone {
            name,
            axiom,
            together,
            ..
        } = alone;
        let ran = tried(name, &text(alone.deck), &text(alone.state), &[]);
        let words = format!("{axiom}clauses: all hold\ntogether: {together}\n");
        assert_eq!((ran.status, ran.out), (Some(5), words), "{name}");
        assert_eq!(ran.err, "");
    }
}

/// Whoever tests the clauses alone is told where they need not say every rule.
#[test]
fn clauses_that_hold_and_say_too_little() {
    let chain = deck(&[vec![0, 0, 0, 2, 3], vec![27, 2, 0, 0, 0]]);
    let state = deck(&[vec![50, 1], vec![52, 0, 0, 0]]);
    let told = tried("little", &chain, &state, &["--clauses"]);
    assert_eq!(
        (told.status, told.out.as_str()),
        (Some(0), "clauses: all hold\n")
    );
    let why = ": accepted, not promised whole: line 2: the chain has not two parts and gave no rule (role-chain-len-ne-2)\n";
    assert!(told.err.ends_with(why), "{}", told.err);
    let rows = tried("little-rows", &chain, &state, &["--clauses", "--rows"]);
    assert_eq!(rows.out, row(&[48, 1, 0]));
    assert!(rows.err.ends_with(why), "{}", rows.err);
    let axioms = tried("little-axioms", &chain, &state, &["--axioms"]);
    assert_eq!((axioms.status, axioms.err.as_str()), (Some(5), ""));
    let whole = run(&["try", "--clauses", JUNCTION, HELD]);
    assert_eq!(whole.err, "");
}

/// An empty name lets the clauses hold of a deck without option 4; with it the other half is broken.
#[test]
fn a_limit_on_a_compound() {
    let limit = |options| {
        deck(&[
            vec![0, 3, 0, 1, options],
            vec![3, 0],
            vec![3, 1],
            vec![3, 2],
            vec![7, 1, 2],
            vec![12, 1, 0, 3],
            vec![21, 0, 4],
        ])
    };
    let state = deck(&[
        vec![50, 3],
        vec![51, 0, 0],
        vec![51, 1, 1, 2],
        vec![51, 2, 1, 2],
        vec![52, 0, 0, 1, 0, 2],
    ]);
    let without = tried("limit", &limit(3), &state, &["--clauses"]);
    let why = ": accepted, not promised whole: clause 2 has an at-most over a fresh class\n";
    assert_eq!(without.out, "clauses: all hold\n");
    assert!(without.err.ends_with(why), "{}", without.err);
    let with = tried("limit-equal", &limit(7), &state, &["--clauses"]);
    assert_eq!(
        (with.status, with.out.as_str(), with.err.as_str()),
        (
            Some(5),
            "clauses: clause 3 is broken: A1(x), A2(x) → Q0(x)\n         x = element 1\n",
            ""
        )
    );
}

#[test]
fn a_clause_without_a_variable() {
    let top_below_bot = deck(&[vec![0, 0, 0, 0, 3], vec![1], vec![2], vec![21, 0, 1]]);
    let ran = tried("no-variable", &top_below_bot, &deck(&[vec![50, 1]]), &[]);
    assert_eq!(
        ran.out,
        "axioms: line 4 is broken, kind 21: SubClassOf(owl:Thing owl:Nothing)\n        x is in the first and not in the \
         second: x = element 0\nclauses: clause 0 is broken: ⊤ → ⊥\n         it has no variable\n\
         together: no class is fresh, so that where every axiom holds every clause does: mend the axiom first\n"
    );
}

#[test]
fn each_may_come_on_standard_input() {
    let file = run(&["try", JUNCTION, BROKEN]);
    for (words, input) in [
        (["try", JUNCTION, "-"], BROKEN),
        (["try", "-", BROKEN], JUNCTION),
        (["try", JUNCTION, "/dev/stdin"], BROKEN),
    ] {
        assert_eq!(run_on(&words, &read(input)), file);
    }
    assert_eq!(run(&["try", "--", JUNCTION, BROKEN]), file);
}
