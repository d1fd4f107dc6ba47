//! Sizes of the lent tables: enough, just enough, short, or wrong.

use deck::random::Random;
use lent::{RECORDS, SCRATCH};
use oracle::Limits;

use crate::call::{NUMBERS, Sizes};

/// What is wrong with sizes that are refused.
pub const WRONG: [&str; 13] = [
    "part of a clause",
    "a clause too many",
    "part of an atom",
    "an atom too many",
    "part of a deferral",
    "a deferral too many",
    "no numbers",
    "numbers one byte short",
    "numbers one byte long",
    "numbers of another count",
    "no scratch",
    "scratch one byte short",
    "scratch far too short",
];

impl Sizes {
    /// Records of the three tables; `None` where the sizes are refused.
    #[must_use]
    pub fn rooms(&self) -> Option<[usize; 3]> {
        let largest = Limits::LARGEST.rooms();
        let fit = |place: usize| {
            let (bytes, record) = (self.0[place], RECORDS[place]);
            bytes.is_multiple_of(record) && bytes / record <= largest[place]
        };
        let [.., numbers, scratch] = self.0;
        let good = (0..3).all(fit) && numbers == NUMBERS && scratch >= SCRATCH;
        good.then(|| [0, 1, 2].map(|place| self.0[place] / RECORDS[place]))
    }

    /// Sizes for a run that needs so many records, and what is wrong with them. `generous`: they are enough.
    pub fn draw(
        rng: &mut Random,
        needed: [usize; 3],
        generous: bool,
    ) -> (Self, Option<&'static str>) {
        let rooms = if generous {
            enough(rng, needed)
        } else {
            any(rng, needed)
        };
        let mut sizes = Self::of_rooms(rooms);
        sizes.lengthen_scratch(rng);
        let is_wrong = !generous && rng.chance(1, 12);
        let wrong = is_wrong.then(|| sizes.spoil(rng));
        (sizes, wrong)
    }

    /// Makes scratch longer than it must be, at times.
    pub fn lengthen_scratch(&mut self, rng: &mut Random) {
        if rng.chance(1, 8) {
            self.0[4] += *rng.pick(&[1, 2, 3, 4, 40, 4_096, 5_001]);
        }
    }

    /// Makes one of the sizes wrong.
    fn spoil(&mut self, rng: &mut Random) -> &'static str {
        let wrong = rng.index(WRONG.len());
        match wrong {
            0..6 => {
                let place = wrong / 2;
                let record = RECORDS[place];
                if wrong.is_multiple_of(2) {
                    self.0[place] += 1 + rng.index(record - 1);
                } else {
                    self.0[place] = (Limits::LARGEST.rooms()[place] + 1) * record;
                }
            }
            6 => self.0[3] = 0,
            7 => self.0[3] = NUMBERS - 1,
            8 => self.0[3] = NUMBERS + 1,
            9 => self.0[3] = *rng.pick(&[4, NUMBERS - 4, NUMBERS + 4, 2 * NUMBERS]),
            10 => self.0[4] = 0,
            11 => self.0[4] = SCRATCH - 1,
            _ => self.0[4] = rng.index(SCRATCH - 1),
        }
        WRONG[wrong]
    }
}

fn enough(rng: &mut Random, needed: [usize; 3]) -> [usize; 3] {
    let largest = Limits::LARGEST.rooms();
    let mut rooms = needed;
    for place in 0..3 {
        let more = *rng.pick(&[0, 0, 0, 1, 2, 9, 100]);
        rooms[place] = (rooms[place] + more).min(largest[place]);
    }
    rooms
}

fn any(rng: &mut Random, needed: [usize; 3]) -> [usize; 3] {
    let mut rooms = enough(rng, needed);
    let place = rng.index(3);
    match rng.weighted(&[110, 20, 24, 10, 6, 3, 6, 1]) {
        0 => {}
        1 => rooms = needed,
        2 => rooms[place] = needed[place].saturating_sub(1),
        3 => rooms[place] = rng.index(needed[place] + 1),
        4 => rooms = needed.map(|needed| rng.index(needed + 1)),
        5 => rooms = [0; 3],
        6 => rooms = Limits::LISTER.rooms(),
        _ => rooms = Limits::LARGEST.rooms(),
    }
    rooms
}
