//! Refusals as errors: through `?`, across threads.

mod common;

use std::error::Error;
use std::thread;

use common::{refused, texts, worked};
use gorvask::{Clausifier, Refusal};

#[test]
fn every_number_says_what_is_wrong() {
    for (number, line, deck) in refused() {
        let refusal = Clausifier::new().clausify(&deck).expect_err("refused");
        let text = refusal.to_string();
        assert!(text.ends_with(&format!("(refusal {number})")), "{text}");
        match line {
            Some(line) => assert!(text.starts_with(&format!("line {line}: ")), "{text}"),
            None => assert!(!text.starts_with("line"), "{text}"),
        }
    }
}

/// How many clauses each deck has, as an office's own program would ask.
fn count(decks: &[Vec<u8>]) -> Result<usize, Box<dyn Error + Send + Sync>> {
    let mut clausifier = Clausifier::new();
    let mut sum = 0;
    for deck in decks {
        sum += clausifier.clausify(deck)?.len();
    }
    Ok(sum)
}

#[test]
fn a_refusal_goes_up_with_its_number() {
    assert_eq!(count(&[worked(), worked()]).expect("accepted"), 2);
    let error = count(&[worked(), Vec::new(), worked()]).expect_err("refused");
    assert!(error.source().is_none());
    let refusal = error.downcast::<Refusal>().expect("a refusal");
    assert_eq!((refusal.number(), refusal.line()), (3, Some(1)));
}

#[test]
fn threads_clausify_side_by_side() {
    let threads: Vec<_> = (0..4)
        .map(|_| {
            thread::spawn(|| {
                let mut clausifier = Clausifier::new();
                let mut answers = Vec::new();
                for (number, line, deck) in refused() {
                    let refusal = clausifier.clausify(&deck).expect_err("refused");
                    assert_eq!((refusal.number(), refusal.line()), (number, line));
                    let clauses = clausifier.clausify(&worked()).expect("accepted");
                    answers.extend(texts(clauses));
                }
                answers
            })
        })
        .collect();
    for thread in threads {
        let answers = thread.join().expect("a thread that ends");
        assert!(answers.iter().all(|text| text == "A0(x) → ∃r0.A1(x)"));
    }
}

#[test]
fn a_clausifier_and_its_refusals_may_change_threads() {
    fn may_move<T: Send + Sync + 'static>() {}
    may_move::<Clausifier>();
    may_move::<Refusal>();
}
