//! Runs of calls on one session, drawn at random and led by the second reading.

mod changes;
mod decks;
mod lines;
mod numbers;

use deck::random::Random;
use deck::{Deck, Refusal};
use entry::{Outcome, Sizes};
use lent::SCRATCH;
use oracle::{Limits, assert_agreed, run};

use crate::expected::Reply;
use crate::second::{AXIOM_KINDS, Session};
use crate::steps::{Call, Change, Player, Step};

/// A step, what the original answers where it is asked for a taking, and what is counted.
#[derive(Clone, Debug, PartialEq, Eq)]
pub struct Planned {
    pub step: Step,
    pub answer: Option<Outcome>,
    pub met: Vec<String>,
}

/// The run of a seed, and what it starts from.
pub fn planned(rng: &mut Random, seed: u64) -> (String, Vec<Planned>) {
    let drawn = decks::deck(rng, seed);
    let mut drawer = Drawer::new(rng, drawn.pool);
    drawer.begin(&drawn.kind, &drawn.deck);
    if drawn.is_scripted {
        drawer.play_to_the_limit();
    }
    let calls = drawer.rng.between(8, drawn.calls);
    for _ in 0..calls {
        drawer.draw();
    }
    (drawn.kind, drawer.planned)
}

/// Records of the three tables where nobody knows what is needed.
const ROOMS: [[usize; 3]; 4] = [[0; 3], [8, 40, 2], [60, 300, 20], [400, 2_000, 60]];

/// A run in the making.
struct Drawer<'r> {
    rng: &'r mut Random,
    player: Player,
    /// Axiom lines to be added.
    pool: Vec<Vec<u8>>,
    planned: Vec<Planned>,
}

impl<'r> Drawer<'r> {
    fn new(rng: &'r mut Random, pool: Vec<Vec<u8>>) -> Self {
        Self {
            rng,
            player: Player::default(),
            pool,
            planned: Vec::new(),
        }
    }

    /// A start, now and then behind a call on no session.
    fn begin(&mut self, kind: &str, deck: &[u8]) {
        if self.rng.chance(1, 6) {
            self.call(true);
        }
        self.push(
            Step::of(Call::Start(deck.to_vec())),
            vec![format!("a start from {kind}")],
        );
    }

    /// All lines of the pool are added, and the last one is struck again.
    fn play_to_the_limit(&mut self) {
        for line in std::mem::take(&mut self.pool) {
            self.push(Step::of(Call::Add(line)), Vec::new());
        }
        self.take(true);
        let last = self.player.session().map_or(0, Session::lines);
        self.push(Step::of(Call::Strike(last)), Vec::new());
        self.take(true);
    }

    fn draw(&mut self) {
        let is_live = self.player.session().is_some();
        if !is_live && self.rng.chance(4, 5) || self.rng.chance(1, 16) {
            self.start();
        } else {
            self.call(false);
        }
    }

    /// Another start, over whatever there is.
    fn start(&mut self) {
        let over = if self.player.session().is_some() {
            "a start over a session"
        } else {
            "a start over none"
        };
        let drawn = decks::again(self.rng);
        self.pool.extend(drawn.pool);
        let mut step = Step::of(Call::Start(drawn.deck));
        let mut met = vec![over.to_owned(), format!("a start from {}", drawn.kind)];
        met.extend(changes::change(self.rng, &self.player, &mut step));
        changes::lengthen_scratch(self.rng, &mut step);
        self.push(step, met);
    }

    /// Any call but a start; mostly on the session as it is.
    fn call(&mut self, is_changed: bool) {
        let session = self.player.session();
        let (call, what) = match self.rng.weighted(&[38, 24, 12, 26]) {
            0 => {
                let (text, what) = lines::text(self.rng, session, &mut self.pool);
                (Call::Add(text), Some(format!("added: {what}")))
            }
            1 => {
                let (line, what) = numbers::line(self.rng, session);
                (Call::Strike(line), Some(format!("struck: {what}")))
            }
            2 => (Call::Options(numbers::options(self.rng)), None),
            _ => return self.take(false),
        };
        let mut step = Step::of(call);
        let mut met: Vec<String> = what.into_iter().collect();
        if is_changed || self.rng.chance(1, 9) {
            met.extend(changes::change(self.rng, &self.player, &mut step));
        }
        changes::lengthen_scratch(self.rng, &mut step);
        self.push(step, met);
    }

    /// A taking; the original is asked for some, and for those whose tables must be enough.
    fn take(&mut self, is_generous: bool) {
        let deck = self.player.session().map(Session::deck);
        let asked = is_generous || self.rng.chance(1, 2);
        let run = |deck: Deck| {
            let run = run(&deck, &Limits::LARGEST);
            (deck, run)
        };
        let run = deck.filter(|_| asked).map(run);
        let needed = run.as_ref().map(|(_, run)| run.most.rooms());
        let needed = needed.unwrap_or_else(|| *self.rng.pick(&ROOMS));
        let (sizes, wrong) = Sizes::draw(self.rng, needed, is_generous);
        let [clauses, atoms, deferrals, numbers, scratch] = sizes.0;
        let mut step = Step {
            scratch,
            ..Step::of(Call::Take([clauses, atoms, deferrals, numbers]))
        };
        let mut met: Vec<String> = wrong.iter().map(|what| format!("taken: {what}")).collect();
        if !is_generous && wrong.is_none() && self.rng.chance(1, 12) {
            met.extend(changes::change(self.rng, &self.player, &mut step));
        }
        // On a changed table it may be another deck's, or none.
        let run = run.filter(|_| step.change == Change::None);
        let answer = run.zip(sizes.rooms());
        let answer = answer.map(|((deck, run), rooms)| in_rooms(&deck, &run, rooms));
        self.plan(step, met, answer);
    }

    fn push(&mut self, step: Step, met: Vec<String>) {
        self.plan(step, met, None);
    }

    /// Plans a step, and goes on as it must end.
    fn plan(&mut self, step: Step, mut met: Vec<String>, answer: Option<Outcome>) {
        let table = self.player.lent(&step);
        let expected = self.player.expected(&step, &table);
        let before = self.axioms();
        let reply = match &expected.reply {
            Reply::Of(Err(Refusal { number, .. })) => u64::from(*number) << 32,
            Reply::Of(Ok(())) | Reply::OfRun(_) => 0,
        };
        self.player.go_on(&step, reply, &expected.session);
        if reply == 0 {
            met.extend(self.edges(&step, before));
        }
        // A table of a wrong size is never run on, whatever was drawn for it.
        let answer = answer.filter(|_| matches!(expected.reply, Reply::OfRun(_)));
        met.extend(answer.is_some().then(|| ASKED.to_owned()));
        self.planned.push(Planned { step, answer, met });
    }

    /// How many axioms the live deck has.
    fn axioms(&self) -> usize {
        let session = self.player.session();
        session.map_or(0, |session| {
            let kinds = session.kinds();
            kinds.filter(|(_, kind)| AXIOM_KINDS.contains(kind)).count()
        })
    }

    /// Where a call that was done came to.
    fn edges(&self, step: &Step, before: usize) -> Vec<String> {
        let axioms = self.axioms();
        let bytes = self.player.session().map_or(0, |live| live.text().len());
        let all = match step.call {
            Call::Add(_) => vec![
                (FIRST_ADDED, before == 0),
                (FULL, bytes == deck::limits::DECK_BYTES),
                (MOST, axioms == deck::limits::AXIOMS),
            ],
            Call::Strike(_) => vec![(ALL_STRUCK, axioms == 0)],
            Call::Start(_) => vec![(NO_AXIOMS, axioms == 0)],
            _ => Vec::new(),
        };
        let met = all.into_iter().filter(|(_, is_met)| *is_met);
        met.map(|(what, _)| what.to_owned()).collect()
    }
}

pub const ASKED: &str = "a taking that the original was asked for";
pub const FIRST_ADDED: &str = "an axiom added to none";
pub const FULL: &str = "an axiom added up to 65,536 bytes";
pub const MOST: &str = "an axiom added as the 1,024th";
pub const ALL_STRUCK: &str = "the only axiom struck";
pub const NO_AXIOMS: &str = "a session started without axioms";

/// What the drawn calls must meet.
#[must_use]
pub fn must() -> Vec<String> {
    let edges = [ASKED, FIRST_ADDED, FULL, MOST, ALL_STRUCK, NO_AXIOMS];
    let over = ["a start over a session", "a start over none"];
    let lines = lines::KINDS.iter().map(|what| format!("added: {what}"));
    let struck = numbers::KINDS.iter().map(|what| format!("struck: {what}"));
    let taken = entry::WRONG.iter().map(|what| format!("taken: {what}"));
    let told = edges.iter().chain(&over).chain(&changes::KINDS);
    told.map(|&what| what.to_owned())
        .chain(lines)
        .chain(struck)
        .chain(taken)
        .chain(
            decks::KINDS
                .iter()
                .map(|what| format!("a start from {what}")),
        )
        .collect()
}

/// The original's answer to a live deck in tables of so many records, where `generous` is its run in the largest.
fn in_rooms(deck: &Deck, generous: &oracle::Run, rooms: [usize; 3]) -> Outcome {
    let run = generous.in_rooms(deck, rooms);
    match &run.answer {
        Ok(listing) => {
            assert_agreed(deck, listing);
            Outcome::from(listing)
        }
        Err(refusal) => Outcome::from(*refusal),
    }
}

/// The original's answer to a live deck's text in tables of these bytes.
///
/// # Panics
/// If the sizes are refused, or the text is no deck.
#[must_use]
pub fn answer(text: &[u8], [clauses, atoms, deferrals, numbers]: [usize; 4]) -> Outcome {
    let sizes = Sizes([clauses, atoms, deferrals, numbers, SCRATCH]);
    let deck = deck::read(text).expect("a live deck");
    let generous = run(&deck, &Limits::LARGEST);
    in_rooms(&deck, &generous, sizes.rooms().expect("good sizes"))
}
