//! The host's diagnosis beside the library's reply.

use diagnosis::session::{diagnose_add, diagnose_options, diagnose_strike};
use diagnosis::{Diagnosis, diagnose};

use crate::call::tell;
use crate::second::Session;
use crate::steps::{Call, Player, Step};

/// How the diagnosis of what a step asks for has another number or line than the reply, or is missing, or too much. Nothing is asked
/// of a taking, nor where the table holds no session, nor of refusal 1, by which neither a deck nor a line is looked at.
pub fn difference(player: &Player, step: &Step, lent: &[u8], reply: u64) -> Option<String> {
    if reply >> 32 == 1 {
        return None;
    }
    let told = match step.call {
        Call::Start(ref deck) => diagnose(deck),
        Call::Take(_) => return None,
        ref call => of_change(&player.live(step, lent)?, call),
    };
    let found = told.as_ref().map_or(0, |told| {
        let [number, line] = [told.number, told.line].map(u64::from);
        (number << 32) + line
    });
    let asked = tell(reply);
    (found != reply).then(|| format!("the diagnosis is {told:?}, and the reply {asked}"))
}

/// Why a live deck is not changed.
fn of_change(live: &Session, call: &Call) -> Option<Diagnosis> {
    let deck = live.text();
    match call {
        Call::Add(line) => diagnose_add(&deck, line),
        Call::Strike(line) => diagnose_strike(&deck, *line),
        Call::Options(options) => diagnose_options(&deck, *options),
        Call::Start(_) | Call::Take(_) => None,
    }
}

#[cfg(test)]
mod tests {
    use deck::limits::OPTIONS;
    use deck::write::row;

    use super::{Call, Player, Step, difference};
    use crate::second::Session;
    use crate::steps::Change;

    fn lines(rows: &[&[u32]]) -> Vec<u8> {
        let mut out = Vec::new();
        rows.iter().for_each(|numbers| row(&mut out, numbers));
        out
    }

    /// Two classes, and an axiom on line 4.
    fn deck() -> Vec<u8> {
        lines(&[&[0, 2, 0, 1, 0], &[3, 0], &[3, 1], &[21, 0, 1]])
    }

    /// Whether a reply to a call on a session that holds the deck is not the diagnosis's.
    fn is_different(call: &Call, number: u64, line: u64) -> bool {
        let step = Step::of(call.clone());
        let mut player = Player::default();
        let session = Session::start(&deck()).unwrap().table();
        player.go_on(&Step::of(Call::Start(deck())), 0, &session);
        let table = player.lent(&step);
        difference(&player, &step, &table, (number << 32) + line).is_some()
    }

    /// A call of each kind that is refused, and by what.
    fn refused() -> [(Call, u64, u64); 8] {
        [
            (Call::Start(lines(&[&[0, 1, 0, 0, 0], &[3, 1]])), 5, 2),
            (Call::Start(vec![b' '; 65_537]), 2, 0),
            (Call::Add(b"\n".to_vec()), 2, 5),
            (Call::Add(lines(&[&[3, 0]])), 3, 5),
            (Call::Add(lines(&[&[21, 0, 2]])), 5, 5),
            (Call::Add(vec![b' '; 65_536]), 2, 0),
            (Call::Strike(3), 15, 0),
            (Call::Options(OPTIONS + 1), 4, 1),
        ]
    }

    /// A call of each kind that is done.
    fn done() -> [Call; 4] {
        [
            Call::Start(deck()),
            Call::Add(lines(&[&[21, 1, 0]])),
            Call::Strike(4),
            Call::Options(OPTIONS),
        ]
    }

    #[test]
    fn another_number_or_line_is_seen() {
        for (call, number, line) in refused() {
            assert!(!is_different(&call, number, line), "{call:?}");
            for other in [number - 1, number + 1, 13] {
                assert_eq!(is_different(&call, other, line), other != 1, "{call:?}");
            }
            assert!(is_different(&call, number, line + 1), "{call:?}");
        }
    }

    #[test]
    fn a_diagnosis_too_much_or_too_few_is_seen() {
        for (call, _, _) in refused() {
            assert!(is_different(&call, 0, 0), "{call:?}");
        }
        for call in done() {
            assert!(!is_different(&call, 0, 0), "{call:?}");
            assert!(is_different(&call, 5, 2) && is_different(&call, 15, 0));
        }
    }

    #[test]
    fn refusal_1_and_takings_say_nothing() {
        let refused = refused().map(|(call, _, _)| call);
        for call in refused.into_iter().chain(done()) {
            assert!(!is_different(&call, 1, 0), "{call:?}");
        }
        let take = Call::Take([0; 4]);
        assert!(!is_different(&take, 0, 0) && !is_different(&take, 12, 4));
    }

    /// Where somebody else has written to the table, its deck is the diagnosis's.
    #[test]
    fn the_deck_is_the_tables() {
        let change = |change| Step {
            change,
            ..Step::of(Call::Strike(1))
        };
        let player = Player::default();
        let asked = |step: &Step, reply| {
            let table = player.lent(step);
            difference(&player, step, &table, reply)
        };
        let none = change(Change::Zeros);
        assert_eq!([0, 15 << 32].map(|reply| asked(&none, reply)), [None, None]);
        let text = change(Change::Text(deck()));
        assert_eq!(asked(&text, 15 << 32), None);
        let told = asked(&text, 0).unwrap();
        assert!(told.starts_with("the diagnosis is Some(Diagnosis { number: 15, line: 0,"));
        assert!(told.ends_with(", and the reply done"), "{told}");
    }
}
