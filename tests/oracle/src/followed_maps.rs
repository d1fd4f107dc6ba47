//! Maps of inverses, with rings and without, and what each role code is followed to by the second reading, as the table
//! `followed_maps` of the rules.

use std::fmt::Write as _;
use std::path::{Path, PathBuf};

use deck::random::Random;

use crate::following::Inverses;

/// The table's file.
#[must_use]
pub fn path() -> PathBuf {
    let repository = Path::new(env!("CARGO_MANIFEST_DIR")).join("../..");
    repository.join("crates/rules/specs/FollowedMaps.antt")
}

const HEAD: &str = "-- Maps of inverses, with rings and without, and what each role code is followed to: written by tests/decided/make. Assumes nothing.
use Rattle.std.specs.Prelude.{List, [], ◌∷◌, ℕ}

pub record Followed : Type 0 where
  pub map : List (ℕ × ℕ)
  pub ends : List ℕ

abbrev pub followed_maps : List Followed
followed_maps =
";

/// The table's text.
///
/// # Panics
/// Never: a text takes all.
#[must_use]
pub fn table() -> String {
    let mut text = String::from(HEAD);
    let mut before = "";
    for (name, map) in cases() {
        let entries: String = map.0.iter().map(|entry| format!("{entry:?} ∷ ")).collect();
        let ends = map.ends(roles(&map));
        let ends: String = ends.iter().map(|end| format!("{end} ∷ ")).collect();
        writeln!(text, "    -- {name}").expect("a text takes all");
        writeln!(
            text,
            "    {before}record {{ map = {entries}[]; ends = {ends}[] }}"
        )
        .expect("a text takes all");
        before = "∷ ";
    }
    text.push_str("    ∷ []\n");
    text
}

/// The roles that a map speaks of, up to its greatest id.
fn roles(map: &Inverses) -> u32 {
    let ids = map.0.iter().flat_map(|&(key, value)| [key, value / 2]);
    ids.max().map_or(1, |greatest| greatest + 1)
}

/// The maps and what they are, in words. No map comes twice.
#[must_use]
pub fn cases() -> Vec<(String, Inverses)> {
    let mut cases = vec![
        ("no entry".to_owned(), Inverses::default()),
        (
            "r0 inverse to r1, then r2 inverse to r0: r1 becomes r2 itself".to_owned(),
            Inverses(vec![(0, 5), (1, 1)]),
        ),
    ];
    let drawn = small_rings().chain(chains()).chain(tails()).chain(random());
    for map in drawn {
        if cases.iter().all(|(_, other)| *other != map) {
            cases.push((in_words(&map), map));
        }
    }
    cases
}

/// Rings of one, two and three, with every turn; the larger ones both ways round.
fn small_rings() -> impl Iterator<Item = Inverses> {
    let rings: [&[u32]; 5] = [&[0], &[0, 1], &[2, 1], &[0, 1, 2], &[2, 1, 0]];
    rings.into_iter().flat_map(|ring| {
        let turns = 1_u32 << ring.len();
        (0..turns).map(move |turns| Inverses(ring_of(ring, turns)))
    })
}

/// Each id leads to the next; bit k of `turns` says whether the entry of place k turns.
fn ring_of(ids: &[u32], turns: u32) -> Vec<(u32, u32)> {
    let next = |place: usize| ids[(place + 1) % ids.len()];
    (0..ids.len())
        .map(|place| (ids[place], 2 * next(place) + (turns >> place) % 2))
        .collect()
}

/// Chains of up to five entries, each of which turns, rising and falling.
fn chains() -> impl Iterator<Item = Inverses> {
    (1..=5).flat_map(|length| {
        let rising = (0..length).map(|id| (id, 2 * id + 3)).collect();
        let falling = (0..length).map(|id| (id + 1, 2 * id + 1)).collect();
        [Inverses(rising), Inverses(falling)]
    })
}

/// A way of two entries to each place of a ring of two and of three, whose least id is 1.
fn tails() -> impl Iterator<Item = Inverses> {
    let rings: [&[u32]; 3] = [&[1, 3], &[3, 1, 2], &[2, 1, 4]];
    rings.into_iter().flat_map(|ring| {
        let places = ring.iter();
        places.flat_map(move |&place| {
            (0..2).map(move |turn| {
                let mut entries = ring_of(ring, 1 + 4 * turn);
                entries.insert(0, (5, 2 * place + turn));
                entries.push((0, 11));
                Inverses(entries)
            })
        })
    })
}

/// Some of up to eight ids with any values.
fn random() -> impl Iterator<Item = Inverses> {
    let mut rng = Random::new(8);
    (0..100).map(move |_| {
        let roles = rng.between(2, 8);
        let mut ids: Vec<u32> = (0..roles).collect();
        rng.shuffle(&mut ids);
        let keys = rng.between(1, roles);
        ids.truncate(keys as usize);
        let entries = ids.into_iter().map(|id| (id, rng.below(2 * roles)));
        Inverses(entries.collect())
    })
}

/// The rings, and the longest way.
fn in_words(map: &Inverses) -> String {
    let mut words: Vec<String> = map
        .rings()
        .iter()
        .map(|ring| format!("a ring of {} from r{} on", ring.len(), ring[0]))
        .collect();
    if words.is_empty() {
        words.push("no ring".into());
    }
    let ways = map.ways(roles(map)).into_iter();
    words.push(match ways.map(|(_, steps)| steps).max() {
        Some(1) => "up to 1 step".into(),
        longest => format!("up to {} steps", longest.unwrap_or(0)),
    });
    words.join(", ")
}
