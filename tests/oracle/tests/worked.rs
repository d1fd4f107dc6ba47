//! Document 01's worked deck, and the forms of an answer.

mod common;

use common::Lines;
use deck::{Axiom, Refusal};
use oracle::{Answer, Limits, answer, answer_min_zero};

const DECK: &str = "          0          3          0          1          3
          3          0
          3          1
          9          0          1
         21          0          2
";

const LISTING: &str = "         41          0          1          1
         42          1          0          1          0          0          0
         42          3          0          2          0          0          0
         43          1          1          0          0          1          0          0          0          0          6
";

#[test]
fn listing_byte_for_byte() {
    let answer = answer(DECK.as_bytes(), &Limits::LISTER);
    assert_eq!(String::from_utf8(answer.write()).unwrap(), LISTING);
    let Answer::Accepted(listing) = answer else {
        panic!("{answer:?}")
    };
    assert_eq!(listing.numbers(), [1, 1, 0, 0, 1, 0, 0, 0, 0, 6]);
    assert_eq!(listing.clause_table(), [0, 1, 1]);
    assert_eq!(listing.atom_table(), [1, 0, 1, 0, 0, 0, 3, 0, 2, 0, 0, 0]);
    assert_eq!(listing.deferral_table(), []);
}

#[test]
fn refusals_print_their_number_and_line() {
    let listed =
        |deck: &str| String::from_utf8(answer(deck.as_bytes(), &Limits::LISTER).write()).unwrap();
    assert_eq!(listed(""), "         49          3          1\n");
    assert_eq!(listed("\n"), "         49          2          1\n");
    assert_eq!(
        listed(&DECK.replace("21          0          2", "21          0          3")),
        "         49          5          5\n"
    );
    let few = Limits {
        visits: 5,
        ..Limits::LISTER
    };
    assert_eq!(
        answer(DECK.as_bytes(), &few),
        Answer::Refused(Refusal {
            number: 10,
            line: 5
        })
    );
}

/// Each kind of atom but equality, which the Rust never writes, and each word of it.
#[test]
fn words_of_each_kind() {
    let mut lines = Lines::new(2, 1, 2, 2);
    let (a, b, top) = (lines.class(0), lines.class(1), lines.top());
    let filler = lines.concept(deck::Concept::Nominal(0));
    let (some, most, least) = (
        lines.some(3, filler),
        lines.max(7, 1, b),
        lines.min(4_294_967_295, 2, top),
    );
    let all = lines.all(0, some);
    let head = lines.or(&[b, most, least]);
    lines.sub(a, all).sub(a, head);
    let listing = lines.listing();
    assert_eq!(
        listing.clauses[0].body,
        [[1, 0, 1, 0, 0, 0], [2, 0, 0, 0, 0, 1]]
    );
    assert_eq!(listing.clauses[0].head, [[3, 3, 3, 0, 1, 0]]);
    assert_eq!(
        listing.clauses[1].head,
        [
            [1, 0, 2, 0, 0, 0],
            [4, 1, 2, 7, 0, 0],
            [5, 2, 0, 4_294_967_295, 0, 0]
        ]
    );
    assert_eq!(listing.clause_table(), [0, 2, 1, 3, 1, 3]);
    assert_eq!(listing.atom_table().len(), 6 * 7);
}

#[test]
fn deferrals_in_the_order_of_the_run() {
    let mut lines = Lines::new(1, 0, 1, 3);
    let (a, bot) = (lines.class(0), lines.bot());
    lines
        .axiom(Axiom::Chain(0, vec![0; 3]))
        .axiom(Axiom::DisjointUnion(0, vec![a, bot]));
    let answer = lines.answer(&Limits::LISTER);
    let rows = "          4          4\n          5          2\n          5          3\n";
    assert_eq!(String::from_utf8(answer.write_deferrals()).unwrap(), rows);
    let Answer::Accepted(listing) = answer else {
        panic!("{answer:?}")
    };
    assert_eq!(listing.deferral_table(), [4, 4, 5, 2, 5, 3]);
}

/// Min 0: the original makes Top of it, so it has no answer; the instrumented copy can hold the line.
#[test]
fn min_zero_cannot_be_held() {
    let mut lines = Lines::new(2, 0, 1, 3);
    let a = lines.class(0);
    let least = lines.min(0, 0, a);
    let not = lines.not(least);
    lines.sub(a, least).sub(a, not);
    assert_eq!(lines.answer(&Limits::LISTER), Answer::CannotHold);
    assert_eq!(lines.answer(&Limits::LISTER).write(), b"cannot hold\n");
    let bytes = deck::write(&lines.0);
    let Answer::Accepted(listing) = answer_min_zero(&bytes, &Limits::LISTER) else {
        panic!()
    };
    assert_eq!(
        listing.clauses.iter().map(common::show).collect::<Vec<_>>(),
        ["A0(X) ->"]
    );
    // Normal forms: A, Min 0, its filler; A, Not, Min 0 again. Then two antecedents and two heads.
    assert_eq!(listing.visits, 3 + 3 + 4);
    // A plain deck is answered as ever.
    assert_eq!(
        answer_min_zero(DECK.as_bytes(), &Limits::LISTER).write(),
        LISTING.as_bytes()
    );
}
