//! The sample's file holds any deck and any answer.

use deck::damage::{damage, over_limit};
use deck::generate::any;
use deck::random::Random;
use samples::sample::{Case, Stored, read, write};

fn case(name: usize, deck: Vec<u8>, answer: &[u8]) -> Case {
    Case {
        name: format!("{name} any"),
        deck,
        answer: Stored::of(answer),
    }
}

#[test]
fn what_is_written_is_read_back() {
    let mut rng = Random::new(1);
    let cases: Vec<Case> = (0..2_000)
        .map(|name| {
            let sound = deck::write(&any(&mut rng).1);
            match rng.below(3) {
                0 => case(name, damage(&mut rng, &sound), &sound),
                1 => case(name, over_limit(&mut rng), b""),
                _ => case(name, sound.clone(), &sound),
            }
        })
        .collect();
    assert_eq!(read(&write(&cases)), Ok(cases));
}

#[test]
fn another_answer_is_not_the_stored_one() {
    for length in [1, 3_999, 4_000, 4_001, 100_000] {
        let answer = vec![b' '; length];
        let stored = Stored::of(&answer);
        assert!(stored.is_of(&answer));
        for place in [0, length / 2, length - 1] {
            let mut other = answer.clone();
            other[place] = b'0';
            assert!(!stored.is_of(&other));
        }
        assert!(!stored.is_of(&answer[1..]));
    }
}

#[test]
fn other_lines_are_refused() {
    for text in [
        "answer\n",
        "deck 1\nx\n",
        "deck 1\n1  2\n",
        "deck 1\n\"\\x1\"\n",
        "deck 1\n\n",
    ] {
        assert!(read(text).is_err(), "{text}");
    }
}
