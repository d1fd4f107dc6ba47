//! A seed's run of calls, played on a library beside the second reading.

use deck::Refusal;
use deck::random::Random;
use entry::Outcome;

use crate::call::{Caller, Library, code, tell};
use crate::diagnosed;
use crate::draw::{Planned, planned};
use crate::expected::{Expected, Reply};
use crate::steps::{Call, Player, Step};

pub struct Case {
    pub seed: u64,
    pub kind: String,
    pub steps: Vec<Planned>,
    /// Decides the rest: where the tables lie, and their dirt.
    pub rng: Random,
}

/// The case of a seed.
#[must_use]
pub fn case(seed: u64) -> Case {
    let mut rng = Random::new(seed);
    let (kind, steps) = planned(&mut rng, seed);
    Case {
        seed,
        kind,
        steps,
        rng,
    }
}

/// A run that is played.
pub struct Played<'a> {
    caller: &'a mut Caller,
    library: &'a Library,
    rng: Random,
    player: Player,
    /// The number that the last taking was refused by, once it has passed the line checks.
    ended: Option<u64>,
}

impl<'a> Played<'a> {
    pub fn new(caller: &'a mut Caller, library: &'a Library, rng: Random) -> Self {
        Self {
            caller,
            library,
            rng,
            player: Player::default(),
            ended: None,
        }
    }

    /// Makes a step's call, and tells what it replied and met.
    ///
    /// # Errors
    /// The first difference.
    pub fn play(
        &mut self,
        step: &Step,
        answer: Option<&Outcome>,
    ) -> Result<(u64, Vec<String>), String> {
        let table = self.player.lent(step);
        let expected = self.player.expected(step, &table);
        let reply = self.caller.make(&mut self.rng, self.library, step, &table);
        if let Some(difference) = self.difference(step, &table, reply, &expected, answer) {
            return Err(difference);
        }
        self.player.go_on(step, reply, self.caller.session());
        Ok((reply, self.met(step, reply)))
    }

    fn difference(
        &mut self,
        step: &Step,
        table: &[u8],
        reply: u64,
        expected: &Expected,
        answer: Option<&Outcome>,
    ) -> Option<String> {
        let of_answer = match &expected.reply {
            Reply::Of(did) => self.reply_difference(step, reply, *did),
            Reply::OfRun(deck) => answer
                .and_then(|answer| self.original_difference(reply, answer))
                .or_else(|| self.run_difference(step, reply, deck)),
        };
        of_answer
            .or_else(|| self.caller.difference(step, &expected.session))
            .or_else(|| diagnosed::difference(&self.player, step, table, reply))
    }

    /// How it is not a reply of the second reading, or a taking that it refuses leaves something.
    fn reply_difference(
        &self,
        step: &Step,
        reply: u64,
        did: Result<(), Refusal>,
    ) -> Option<String> {
        let asked = did.err().map_or(0, code);
        if reply != asked {
            let [told, asked] = [reply, asked].map(tell);
            return Some(format!("the reply is {told}, not {asked}"));
        }
        match step.call {
            Call::Take(_) => self.caller.answer_difference(&Outcome::default()),
            _ => None,
        }
    }

    fn original_difference(&self, reply: u64, answer: &Outcome) -> Option<String> {
        if reply != answer.reply {
            let [told, asked] = [reply, answer.reply].map(tell);
            return Some(format!("the reply is {told}, and the original's {asked}"));
        }
        let difference = self.caller.answer_difference(answer)?;
        Some(format!("beside the original, {difference}"))
    }

    fn run_difference(&mut self, step: &Step, reply: u64, deck: &[u8]) -> Option<String> {
        let Self {
            caller,
            library,
            rng,
            ..
        } = self;
        caller.run_difference(rng, library, reply, step, deck)
    }

    /// What a call met.
    fn met(&mut self, step: &Step, reply: u64) -> Vec<String> {
        let name = step.call.name();
        let (number, line) = (reply >> 32, reply & 0xffff_ffff);
        let mut met = vec![match number {
            0 => format!("{name}: done"),
            _ => format!("{name}: refused {number}"),
        }];
        if number == 2 && line == 0 {
            met.push(format!("{name}: refused 2 at line 0"));
        }
        match (&step.call, self.ended) {
            (Call::Take(_), _) => self.ended = (number > 1).then_some(number),
            (Call::Start(_), _) => self.ended = None,
            (_, Some(ended)) if number == 0 => met.push(gone_on(ended)),
            _ => {}
        }
        if let (Call::Options(options), 0) = (&step.call, number) {
            met.push(format!("options {options}"));
        }
        met
    }
}

/// What is counted where the session goes on.
pub fn gone_on(ended: u64) -> String {
    format!("done after a taking refused by {ended}")
}

#[cfg(test)]
mod tests {
    use super::{Call, Caller, Expected, Played, Player, Random, Refusal, Reply, Step, code};
    use crate::mock::{Fault, erring};

    /// A reply that the second reading shares is held against the diagnosis all the same.
    #[test]
    fn the_diagnosis_is_asked() {
        let mut caller = Caller::default();
        let library = erring(Fault::None);
        let mut played = Played::new(&mut caller, &library, Random::new(1));
        let step = Step::of(Call::Start(Vec::new()));
        let (reply, _) = played.play(&step, None).unwrap();
        assert_eq!(reply, 3 << 32 | 1);
        let table = Player::default().lent(&step);
        let mut difference = |did: Result<(), Refusal>| {
            let expected = Expected {
                reply: Reply::Of(did),
                session: table.clone(),
            };
            let reply = did.err().map_or(0, code);
            played.difference(&step, &table, reply, &expected, None)
        };
        let [same, other] = [1, 2].map(|line| Err(Refusal { number: 3, line }));
        assert_eq!(difference(same), None);
        for did in [other, Ok(())] {
            let told = difference(did).unwrap();
            assert!(told.starts_with("the diagnosis is Some("), "{told}");
        }
    }
}
