//! What was measured of one kind of deck.

mod sessions;
mod states;

use std::io;

use crate::count::Counter;
use crate::decks::Known;
use crate::measure::{Spread, Times};
use crate::ways::{Prepared, Way};

/// How this program, and with it the Rust, was built.
#[derive(Clone, Copy, Debug, PartialEq, Eq)]
pub enum Build {
    Plain,
    Lto,
}

impl Build {
    pub const ALL: [Self; 2] = [Self::Plain, Self::Lto];

    pub fn name(self) -> &'static str {
        match self {
            Self::Plain => "plain",
            Self::Lto => "LTO",
        }
    }

    pub fn named(name: &str) -> Option<Self> {
        Self::ALL.into_iter().find(|build| build.name() == name)
    }
}

pub struct Row {
    pub name: String,
    pub build: Build,
    pub decks: Vec<Measured>,
    /// Instructions of a call on the first deck.
    pub counts: Vec<(Way, u64)>,
}

/// What was measured of one deck, or of a deck and a state.
pub struct Measured {
    pub facts: Facts,
    /// Times of each whole run.
    pub runs: Vec<Times>,
}

/// A deck's own numbers.
#[derive(Clone, Copy, Debug, Default, PartialEq, Eq)]
pub struct Facts {
    pub bytes: usize,
    /// Bytes of the state, where there is one.
    pub state: usize,
    pub axioms: usize,
    pub clauses: usize,
    pub visits: usize,
    /// Records of the tables that Gorvask is lent.
    pub lent: [usize; 3],
}

impl Facts {
    fn of(bytes: &[u8], known: &Known, lent: [usize; 3]) -> Self {
        Self {
            bytes: bytes.len(),
            state: 0,
            axioms: known.deck.axioms.len(),
            clauses: known.listing.clauses.len(),
            visits: known.listing.visits as usize,
            lent,
        }
    }
}

/// The least and the greatest.
pub type Range = (usize, usize);

impl Row {
    /// Measures the decks.
    pub fn of(name: &str, build: Build, decks: &[Vec<u8>], rounds: usize) -> Self {
        Self {
            name: name.to_owned(),
            build,
            decks: decks
                .iter()
                .map(|bytes| Measured::of(bytes, rounds))
                .collect(),
            counts: Vec::new(),
        }
    }

    /// Counts the instructions of each way on a deck, or on a deck and a state.
    pub fn count(
        &mut self,
        counter: Counter,
        ways: impl IntoIterator<Item = Way>,
        texts: &[&[u8]],
    ) -> io::Result<()> {
        for way in ways {
            if let Some(count) = counter.call(way, texts)? {
                self.counts.push((way, count));
            }
        }
        Ok(())
    }

    /// Instructions of a call by this way, if they were counted.
    pub fn count_of(&self, way: Way) -> Option<u64> {
        let found = self.counts.iter().find(|(of, _)| *of == way);
        found.map(|&(_, count)| count)
    }

    /// Takes the runs of a row of the same decks and build.
    ///
    /// # Panics
    /// If the decks are others.
    pub fn join(&mut self, other: Self) {
        assert_eq!(self.decks.len(), other.decks.len(), "{}", self.name);
        for (deck, more) in self.decks.iter_mut().zip(other.decks) {
            assert_eq!(deck.facts, more.facts, "{}", self.name);
            deck.runs.extend(more.runs);
        }
        self.counts.extend(other.counts);
    }

    /// Of a number that each deck has, the least and the greatest.
    pub fn range(&self, number: impl Fn(&Facts) -> usize) -> Range {
        let numbers = || self.decks.iter().map(|deck| number(&deck.facts));
        (numbers().min().unwrap_or(0), numbers().max().unwrap_or(0))
    }

    /// The most records that are lent for one of the decks.
    pub fn lent(&self) -> [usize; 3] {
        [0, 1, 2].map(|table| self.range(|facts| facts.lent[table]).1)
    }

    /// Of a figure that each deck has, the median over the decks.
    pub fn median(&self, figure: impl Fn(&Measured) -> f64) -> f64 {
        Spread::of(self.decks.iter().map(figure)).median
    }

    /// Of a figure that each deck has, the greatest.
    pub fn greatest(&self, figure: impl Fn(&Measured) -> f64) -> f64 {
        self.decks.iter().map(figure).fold(0.0, f64::max)
    }

    /// Milliseconds of a call, over all decks, runs and rounds.
    pub fn time(&self, way: Way) -> Spread {
        Spread::of(self.decks.iter().flat_map(|deck| deck.times(way)))
    }

    /// The time of one way by that of another in the same round, over all decks, runs and rounds.
    pub fn ratio(&self, way: Way, by: Way) -> Spread {
        Spread::of(self.decks.iter().flat_map(|deck| deck.ratios(way, by)))
    }

    /// Of the whole runs' medians of that time the least and the greatest.
    pub fn time_in_runs(&self, way: Way) -> (f64, f64) {
        self.in_runs(|times| times.way(way).to_vec())
    }

    /// Of the whole runs' medians of that ratio the least and the greatest.
    pub fn ratio_in_runs(&self, way: Way, by: Way) -> (f64, f64) {
        self.in_runs(|times| times.ratios(way, by).collect())
    }

    fn in_runs(&self, samples: impl Fn(&Times) -> Vec<f64>) -> (f64, f64) {
        let runs = self.decks.first().map_or(0, |deck| deck.runs.len());
        let medians = (0..runs).map(|run| {
            let decks = self.decks.iter();
            Spread::of(decks.flat_map(|deck| samples(&deck.runs[run]))).median
        });
        medians.fold((f64::INFINITY, 0.0), |(least, greatest), median| {
            (median.min(least), median.max(greatest))
        })
    }

    /// Milliseconds of a call of Gorvask without clearing.
    pub fn without_clearing(&self) -> f64 {
        without_clearing(|way| self.time(way))
    }
}

/// A kind of deck in each build, with all its runs.
pub struct Builds(Vec<Row>);

impl Builds {
    /// The rows of each name.
    pub fn of(rows: Vec<Row>) -> Vec<Self> {
        let mut kinds: Vec<Self> = Vec::new();
        for row in of_build(rows) {
            match kinds.iter_mut().find(|kind| kind.name() == row.name) {
                None => kinds.push(Self(vec![row])),
                Some(kind) => kind.0.push(row),
            }
        }
        kinds
    }

    pub fn name(&self) -> &str {
        &self.0[0].name
    }

    /// Whether this way was timed.
    pub fn has(&self, way: Way) -> bool {
        self.0[0].decks.iter().all(|deck| deck.has(way))
    }

    /// The build whose figures of a way are shown: of Rust alone the one in which that takes less time, of all else the one in
    /// which Rust does, or where Rust was not timed Gorvask.
    pub fn shown(&self, way: Way) -> &Row {
        let by = match way {
            _ if !self.has(Way::Rust) => Way::Gorvask,
            Way::RustAlone => way,
            _ => Way::Rust,
        };
        self.quickest(by)
    }

    /// The build in which a way takes less time.
    pub fn quickest(&self, way: Way) -> &Row {
        let median = |row: &Row| row.time(way).median;
        let rows = self.0.iter();
        rows.min_by(|first, second| median(first).total_cmp(&median(second)))
            .expect("a kind has a row")
    }

    /// The plain build, or where it was not measured the other.
    pub fn plain(&self) -> &Row {
        let plain = self.0.iter().find(|row| row.build == Build::Plain);
        plain.unwrap_or(&self.0[0])
    }
}

/// The rows of each name and build as one.
fn of_build(rows: Vec<Row>) -> Vec<Row> {
    let mut joined: Vec<Row> = Vec::new();
    for row in rows {
        let same = |found: &&mut Row| found.name == row.name && found.build == row.build;
        match joined.iter_mut().find(same) {
            None => joined.push(row),
            Some(found) => found.join(row),
        }
    }
    joined
}

impl Measured {
    fn of(bytes: &[u8], rounds: usize) -> Self {
        let known = Known::of(bytes);
        let mut deck = Prepared::new(bytes);
        deck.compare();
        let facts = Facts::of(bytes, &known, deck.lent());
        let ways = deck.ways().into_iter().map(|way| (way, rounds));
        let times = Times::of(ways, |way, calls, cost| deck.time(way, calls, cost));
        Self {
            facts,
            runs: vec![times],
        }
    }

    /// Whether this way was timed.
    pub fn has(&self, way: Way) -> bool {
        self.times(way).next().is_some()
    }

    /// Milliseconds of a call, over all runs and rounds.
    pub fn time(&self, way: Way) -> Spread {
        Spread::of(self.times(way))
    }

    /// The time of one way by that of another in the same round, over all runs and rounds.
    pub fn ratio(&self, way: Way, by: Way) -> Spread {
        Spread::of(self.ratios(way, by))
    }

    fn times(&self, way: Way) -> impl Iterator<Item = f64> {
        let runs = self.runs.iter();
        runs.flat_map(move |times| times.way(way).iter().copied())
    }

    fn ratios(&self, way: Way, by: Way) -> impl Iterator<Item = f64> {
        self.runs
            .iter()
            .flat_map(move |times| times.ratios(way, by))
    }

    /// Milliseconds of a call of Gorvask without clearing.
    pub fn without_clearing(&self) -> f64 {
        without_clearing(|way| self.time(way))
    }

    /// Milliseconds of a way beyond those of another, by their medians. They are timed apart, so it could fall below 0.
    pub fn beyond(&self, way: Way, other: Way) -> f64 {
        (self.time(way).median - self.time(other).median).max(0.0)
    }

    /// Microseconds for each 1,000 bytes of the deck, of a call that takes so many milliseconds.
    #[expect(
        clippy::cast_precision_loss,
        reason = "a deck has fewer than 2^52 bytes"
    )]
    pub fn by_kilobyte(&self, milliseconds: f64) -> f64 {
        1e6 * milliseconds / self.facts.bytes as f64
    }
}

/// The median time of Gorvask less those of both clearings. They are timed apart, so it could fall below 0.
fn without_clearing(time: impl Fn(Way) -> Spread) -> f64 {
    let [whole, tables, scratch] =
        [Way::Gorvask, Way::ClearTables, Way::ClearScratch].map(|way| time(way).median);
    (whole - tables - scratch).max(0.0)
}

#[cfg(test)]
mod tests {
    use super::{Build, Builds, Facts, Measured, Row};
    use crate::measure::Times;
    use crate::ways::Way;

    fn times(gorvask: [f64; 3], rust: [f64; 3]) -> Times {
        let times = [
            (Way::Gorvask, gorvask.to_vec()),
            (Way::Rust, rust.to_vec()),
            (Way::RustAlone, rust.map(|time| 1.0 / time).to_vec()),
            (Way::ClearTables, vec![0.25; 3]),
            (Way::ClearScratch, vec![0.5; 3]),
        ];
        times.into_iter().collect()
    }

    fn deck(bytes: usize, runs: Vec<Times>) -> Measured {
        let facts = Facts {
            bytes,
            state: 0,
            axioms: 1,
            clauses: 2,
            visits: 3,
            lent: [bytes, 4, 8],
        };
        Measured { facts, runs }
    }

    fn row(build: Build, decks: Vec<Measured>) -> Row {
        Row {
            name: String::new(),
            build,
            decks,
            counts: Vec::new(),
        }
    }

    fn two_decks() -> Row {
        let first = times([1.0, 2.0, 6.0], [2.0, 4.0, 6.0]);
        let second = times([0.5, 0.5, 0.5], [1.0, 1.0, 1.0]);
        row(
            Build::Plain,
            vec![deck(1_000, vec![first]), deck(4_000, vec![second])],
        )
    }

    #[test]
    fn single_decks_keep_their_figures() {
        let row = two_decks();
        assert_eq!(row.range(|facts| facts.bytes), (1_000, 4_000));
        assert_eq!(row.lent(), [4_000, 4, 8]);
        let ratio = row.decks[0].ratio(Way::Gorvask, Way::Rust);
        assert_eq!((ratio.low, ratio.median, ratio.high), (0.5, 0.5, 0.75));
        let rust = |deck: &Measured| deck.time(Way::Rust).median;
        assert_eq!((row.median(rust), row.greatest(rust)), (2.5, 4.0));
        let time = row.time(Way::Rust);
        assert_eq!((time.low, time.median, time.high), (1.0, 1.5, 3.5));
    }

    #[test]
    fn clearing_is_taken_off_down_to_0() {
        let row = two_decks();
        let times = row.decks.iter().map(Measured::without_clearing);
        assert_eq!(times.collect::<Vec<_>>(), [1.25, 0.0]);
        let shares = row.decks.iter().map(|deck| deck.by_kilobyte(0.5));
        assert_eq!(shares.collect::<Vec<_>>(), [500.0, 125.0]);
    }

    /// Three runs of the plain build, and one of the other, in which the Rust takes so many milliseconds.
    fn runs(lto: f64) -> Vec<Row> {
        let run = |build, gorvask, rust| {
            let times = times([gorvask; 3], [rust; 3]);
            row(build, vec![deck(1_000, vec![times])])
        };
        vec![
            run(Build::Plain, 1.0, 2.0),
            run(Build::Lto, 1.0, lto),
            run(Build::Plain, 1.5, 2.0),
            run(Build::Plain, 0.5, 2.0),
        ]
    }

    #[test]
    fn runs_of_the_better_build_stand_side_by_side() {
        let kinds = Builds::of(runs(3.0));
        assert_eq!(kinds.len(), 1);
        let plain = kinds[0].shown(Way::Rust);
        assert_eq!((plain.build, plain.decks[0].runs.len()), (Build::Plain, 3));
        assert_eq!(plain.ratio_in_runs(Way::Gorvask, Way::Rust), (0.25, 0.75));
        assert_eq!(plain.ratio(Way::Gorvask, Way::Rust).median, 0.5);
        assert_eq!(plain.time_in_runs(Way::Gorvask), (0.5, 1.5));
        let kinds = Builds::of(runs(1.0));
        let lto = kinds[0].shown(Way::Gorvask);
        assert_eq!((lto.build, lto.decks[0].runs.len()), (Build::Lto, 1));
        assert_eq!(lto.ratio_in_runs(Way::Gorvask, Way::Rust), (1.0, 1.0));
    }

    #[test]
    fn rust_alone_has_its_own_better_build() {
        // Where Rust takes more time in a run above, Rust alone takes less.
        for (lto, rust, alone) in [
            (3.0, Build::Plain, Build::Lto),
            (1.0, Build::Lto, Build::Plain),
            (2.0, Build::Plain, Build::Plain),
        ] {
            let kinds = Builds::of(runs(lto));
            let builds = [Way::Rust, Way::RustAlone].map(|way| kinds[0].shown(way).build);
            assert_eq!(builds, [rust, alone]);
        }
    }
}
