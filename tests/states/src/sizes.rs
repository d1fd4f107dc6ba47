//! Sizes of the lent tables: enough, just enough, short, or wrong.

use deck::random::Random;
use lent::{RECORDS, SCRATCH, STORE};
use oracle::Limits;

use crate::call::Sizes;

/// What is wrong with sizes that are refused.
pub const WRONG: [&str; 12] = [
    "part of a clause",
    "a clause too many",
    "part of an atom",
    "an atom too many",
    "part of a deferral",
    "a deferral too many",
    "no store",
    "store one byte short",
    "store far too short",
    "no scratch",
    "scratch one byte short",
    "scratch far too short",
];

/// Sizes of the store.
pub const STORES: [&str; 4] = [
    "the least store",
    "an odd store",
    "a store for some of the fresh classes",
    "a store for all",
];

impl Sizes {
    /// Records of the three tables; `None` where the sizes are refused.
    #[must_use]
    pub fn rooms(&self) -> Option<[usize; 3]> {
        let largest = Limits::LARGEST.rooms();
        let fit = |place: usize| {
            let (bytes, record) = (self.0[place], RECORDS[place]);
            bytes.is_multiple_of(record) && bytes / record <= largest[place]
        };
        let [.., store, scratch] = self.0;
        let good = (0..3).all(fit) && store >= STORE && scratch >= SCRATCH;
        good.then(|| [0, 1, 2].map(|place| self.0[place] / RECORDS[place]))
    }

    /// Sizes for a run that needs so many records and so many class ids, and what is wrong with them. `generous`: they are
    /// enough.
    pub fn draw(
        rng: &mut Random,
        needed: [usize; 3],
        ids: usize,
        generous: bool,
    ) -> (Self, Option<&'static str>) {
        let rooms = if generous || rng.chance(7, 8) {
            enough(rng, needed)
        } else {
            short(rng, needed)
        };
        let mut sizes = Self::of_rooms(rooms, store(rng, ids));
        if rng.chance(1, 8) {
            sizes.0[4] += *rng.pick(&[1, 2, 3, 4, 40, 4_096, 5_001]);
        }
        let is_wrong = !generous && rng.chance(1, 30);
        let wrong = is_wrong.then(|| sizes.spoil(rng));
        (sizes, wrong)
    }

    /// Makes one of the sizes wrong.
    fn spoil(&mut self, rng: &mut Random) -> &'static str {
        let wrong = rng.index(WRONG.len());
        match wrong {
            0..6 => {
                let place = wrong / 2;
                let record = RECORDS[place];
                if wrong.is_multiple_of(2) {
                    self.0[place] += 1 + rng.index(record - 1);
                } else {
                    self.0[place] = (Limits::LARGEST.rooms()[place] + 1) * record;
                }
            }
            6 => self.0[3] = 0,
            7 => self.0[3] = STORE - 1,
            8 => self.0[3] = rng.index(STORE - 1),
            9 => self.0[4] = 0,
            10 => self.0[4] = SCRATCH - 1,
            _ => self.0[4] = rng.index(SCRATCH - 1),
        }
        WRONG[wrong]
    }

    /// Which of [`STORES`] the store is, for so many class ids; those up to 8,192 have room in any.
    #[must_use]
    pub fn store_name(&self, ids: usize) -> &'static str {
        let store = self.0[3];
        let place = match store {
            STORE => 0,
            _ if !store.is_multiple_of(4) => 1,
            _ if store < 8 * ids => 2,
            _ => 3,
        };
        STORES[place]
    }
}

/// The least, an odd one, room for some of the ids beyond the least, room for all.
fn store(rng: &mut Random, ids: usize) -> usize {
    let all = STORE.max(8 * ids);
    match rng.below(8) {
        0..=2 => STORE,
        3 => STORE + 1 + rng.index(63),
        4 => STORE + rng.index(all - STORE + 1),
        5 => STORE + 8 * rng.index(all / 8 - STORE / 8 + 1),
        6 => all,
        _ => all + 4 * rng.index(40),
    }
}

fn enough(rng: &mut Random, needed: [usize; 3]) -> [usize; 3] {
    let largest = Limits::LARGEST.rooms();
    let mut rooms = needed;
    for place in 0..3 {
        let more = *rng.pick(&[0, 0, 0, 1, 2, 9, 100]);
        rooms[place] = (rooms[place] + more).min(largest[place]);
    }
    rooms
}

fn short(rng: &mut Random, needed: [usize; 3]) -> [usize; 3] {
    let mut rooms = needed;
    let place = rng.index(3);
    match rng.below(4) {
        0 => rooms[place] = needed[place].saturating_sub(1),
        1 => rooms[place] = rng.index(needed[place] + 1),
        2 => rooms = [0; 3],
        _ => rooms = Limits::LISTER.rooms(),
    }
    rooms
}
