//! A deck and a state with the tables that are lent for them, each call timed.

use std::hint::black_box;
use std::time::Duration;

use states::Test;
use states::second::judge::judge;

use crate::clock;
use crate::decks::Known;
use crate::ours::Lent;
use crate::trials::Texts;
use crate::ways::Way;

pub struct Tried<'t> {
    texts: &'t Texts,
    lent: Lent,
    /// What the second evaluator goes by, where it is asked.
    known: Option<Known>,
    /// The replies of both tests, where they are known.
    replies: Option<[u64; 2]>,
}

impl<'t> Tried<'t> {
    pub fn new(texts: &'t Texts) -> Self {
        Self {
            texts,
            lent: Lent::to(&texts.deck),
            known: None,
            replies: None,
        }
    }

    /// Records of the tables that Gorvask is lent.
    pub fn lent(&self) -> [usize; 3] {
        self.lent.records()
    }

    /// Says that all holds, where the second evaluator would take too long.
    pub fn expect_holds(&mut self) {
        self.replies = Some([0; 2]);
    }

    /// Compares Gorvask's verdicts, and what it leaves in the store, with the second evaluator's.
    ///
    /// # Panics
    /// If they differ.
    pub fn compare(&mut self, known: Known) {
        let Texts { deck, state } = self.texts;
        let replies = Test::BOTH.map(|test| {
            let verdict = judge(test, &known.deck, &known.listing, state)
                .unwrap_or_else(|refusal| panic!("a state of the bench is refused: {refusal:?}"));
            let reply = self.lent.try_state(test, deck, state);
            let words = [&known.listing.numbers()[..], &verdict.words()].concat();
            let stored = self.lent.stored(words.len());
            let name = test.name();
            assert_eq!((reply, stored), (verdict.code(), words), "{name}");
            reply
        });
        self.replies = Some(replies);
        self.known = Some(known);
    }

    /// The time of so many calls, of which each takes `cost` for the clock.
    ///
    /// # Panics
    /// If a reply is another one than it should be.
    pub fn time(&mut self, way: Way, calls: u32, cost: Duration) -> Duration {
        (0..calls)
            .map(|_| {
                let (time, reply) = self.call(way);
                self.check(way, reply);
                time.saturating_sub(cost)
            })
            .sum()
    }

    fn check(&self, way: Way, reply: u64) {
        let is_refused = reply >> 32 > 0;
        assert_eq!(is_refused, Way::READING.contains(&way), "{reply}");
        if let Some([axioms, clauses]) = self.replies {
            match way {
                Way::Axioms => assert_eq!(reply, axioms, "axioms"),
                Way::Clauses => assert_eq!(reply, clauses, "clauses"),
                _ => {}
            }
        }
    }

    /// A call's time and reply.
    fn call(&mut self, way: Way) -> (Duration, u64) {
        let Texts { deck, state } = black_box(self.texts);
        let lent = &mut self.lent;
        let is_deck = state.is_empty();
        match way {
            Way::Clausify => clock::timed(|| lent.clausify(deck)),
            Way::Axioms => clock::timed(|| lent.try_state(Test::Axioms, deck, state)),
            Way::Clauses => clock::timed(|| lent.try_state(Test::Clauses, deck, state)),
            Way::SecondAxioms => self.second(Test::Axioms),
            Way::SecondClauses => self.second(Test::Clauses),
            Way::ReadAll if is_deck => clock::timed(|| lent.clausify(deck)),
            Way::ReadAll => clock::timed(|| lent.try_state(Test::Clauses, deck, state)),
            Way::ReadNothing if is_deck => clock::timed(|| lent.clausify(&[])),
            Way::ReadNothing => clock::timed(|| lent.try_state(Test::Clauses, deck, &[])),
            _ => unreachable!("a way of a deck or a session"),
        }
    }

    fn second(&self, test: Test) -> (Duration, u64) {
        let state = black_box(&self.texts.state);
        let known = self.known.as_ref().expect("it was compared");
        let (time, verdict) = clock::timed(|| judge(test, &known.deck, &known.listing, state));
        let verdict = verdict.expect("a verdict, as when it was compared");
        (time, verdict.code())
    }
}
