//! The line on standard error after an accepted run.

use crate::common::deck;
use crate::process::run_on;

/// Of each subcommand: the status, and the line behind 'accepted, '.
fn promise(rows: &[Vec<u32>]) -> (i32, String) {
    let said = ["list", "text", "check"].map(|subcommand| {
        let ran = run_on(&[subcommand], &deck(rows));
        let line = ran
            .err
            .strip_prefix("gorvask: standard input: accepted, ")
            .expect("an accepted deck");
        let line = line.strip_suffix('\n').expect("a line");
        assert!(!line.contains('\n'));
        (ran.status.expect("a status"), line.to_owned())
    });
    assert!(said.iter().all(|other| *other == said[0]));
    let [first, ..] = said;
    first
}

#[test]
fn promised() {
    let said = promise(&[vec![0, 1, 0, 0, 0], vec![3, 0], vec![21, 0, 0]]);
    assert_eq!(
        said,
        (
            0,
            "promised whole: no axiom of the kinds 21 to 31 is lost or weakened".to_owned()
        )
    );
}

#[test]
fn each_reason_alone() {
    let key = promise(&[vec![0, 2, 0, 0, 0], vec![14, 1], vec![3, 0], vec![21, 0, 0]]);
    assert_eq!(
        key,
        (3, "not promised whole: class 1 is a data key".to_owned())
    );
    // q below B and q below C come first.
    assert_eq!(
        promise(&at_most(0)),
        (
            3,
            "not promised whole: clause 2 has an at-most over a fresh class".to_owned()
        )
    );
}

/// A below at most 0 r (B and C).
fn at_most(options: u32) -> Vec<Vec<u32>> {
    vec![
        vec![0, 3, 0, 1, options],
        vec![3, 0],
        vec![3, 1],
        vec![3, 2],
        vec![7, 1, 2],
        vec![12, 0, 0, 3],
        vec![21, 0, 4],
    ]
}

#[test]
fn promised_with_option_4() {
    let whole = "promised whole: no axiom of the kinds 21 to 31 is lost or weakened";
    assert_eq!(promise(&at_most(4)), (0, whole.to_owned()));
}

/// The clause that leads to the name stands under the one that counts it.
#[test]
fn a_name_with_both_halves() {
    let ran = run_on(&["text"], &deck(&at_most(4)));
    let lines: Vec<&str> = ran.out.lines().take(11).collect();
    assert_eq!(
        lines,
        [
            "    0  Q0(x) → A1(x)",
            "       with 2: A0(x) → ≤0 r0.Q0(x)",
            "       with 3: A1(x), A2(x) → Q0(x)",
            "    1  Q0(x) → A2(x)",
            "       with 2: A0(x) → ≤0 r0.Q0(x)",
            "       with 3: A1(x), A2(x) → Q0(x)",
            "    2  A0(x) → ≤0 r0.Q0(x)",
            "       with 0: Q0(x) → A1(x)",
            "       with 1: Q0(x) → A2(x)",
            "       with 3: A1(x), A2(x) → Q0(x)",
            "    3  A1(x), A2(x) → Q0(x)",
        ]
    );
}

#[test]
fn every_deferral_with_its_line_in_one_line() {
    // All r0 of a class cannot stand on the left: of three members of a disjointness two pairs are left out.
    let (status, line) = promise(&[
        vec![0, 2, 0, 1, 0],
        vec![14, 1],
        vec![3, 0],
        vec![3, 1],
        vec![10, 0, 0],
        vec![23, 0, 1, 2],
        vec![24, 0, 2],
        vec![27, 0, 0, 0, 0],
    ]);
    assert_eq!(status, 3);
    assert_eq!(
        line,
        "not promised whole: line 6: no rule says of two of the disjoint concepts that nothing is both (disjoint-antecedent), \
         2 times; line 7: no rule says that a member of the union is part of it, nor that it shares nothing with the others \
         (disjoint-union-member); line 7: no rule says that the union has no more than its members (disjoint-union-covering); \
         line 8: the chain has not two parts and gave no rule (role-chain-len-ne-2); class 1 is a data key"
    );
}

#[test]
fn many_deferrals_are_all_told() {
    let mut rows = vec![vec![0, 0, 0, 1, 0]];
    rows.extend(vec![vec![27, 0]; 300]);
    let (status, line) = promise(&rows);
    assert_eq!((status, line.matches("; line ").count()), (3, 299));
    assert!(line.contains("line 301: "));
}
