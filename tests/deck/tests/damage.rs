//! Damaged decks: each refusal occurs often, and the line is the first bad one.

use deck::damage::{damage, over_limit};
use deck::generate::any;
use deck::random::Random;
use deck::{Refusal, read, write};

/// The bytes up to the end of so many lines.
fn lines(bytes: &[u8], count: usize) -> &[u8] {
    let end = bytes
        .split_inclusive(|&byte| byte == b'\n')
        .take(count)
        .map(<[u8]>::len)
        .sum();
    &bytes[..end]
}

/// A refusal rests on its line and the lines before it alone, and those before it are sound.
fn check_first_bad_line(bytes: &[u8], refusal: Refusal) {
    if refusal.line == 0 {
        assert!(bytes.len() > 65_536);
        return;
    }
    let line = refusal.line as usize;
    assert_eq!(read(lines(bytes, line)), Err(refusal));
    if line > 1 {
        assert!(read(lines(bytes, line - 1)).is_ok());
    }
}

#[test]
fn damaged_decks_meet_every_refusal() {
    let mut rng = Random::new(11);
    let mut refused = [0; 10];
    let mut at_line_0 = 0;
    for _ in 0..20_000 {
        let (_, deck) = any(&mut rng);
        let bytes = write(&deck);
        assert_eq!(read(&bytes), Ok(deck));
        let damaged = damage(&mut rng, &bytes);
        match read(&damaged) {
            Ok(_) => refused[0] += 1,
            Err(refusal) => {
                refused[refusal.number as usize] += 1;
                at_line_0 += u32::from(refusal.line == 0);
                check_first_bad_line(&damaged, refusal);
            }
        }
    }
    println!("sound after all and refused by number: {refused:?}");
    assert!(
        refused[2..=9].iter().all(|&count| count >= 200),
        "{refused:?}"
    );
    assert!(at_line_0 >= 20);
    assert!(refused[0] < 10_000);
}

#[test]
fn damage_twice() {
    let mut rng = Random::new(12);
    for _ in 0..3_000 {
        let (_, deck) = any(&mut rng);
        let once = damage(&mut rng, &write(&deck));
        let twice = damage(&mut rng, &once);
        if let Err(refusal) = read(&twice) {
            check_first_bad_line(&twice, refusal);
        }
    }
}

#[test]
fn damage_takes_any_bytes() {
    let mut rng = Random::new(13);
    let texts: [&[u8]; 5] = [
        b"",
        b"\n",
        b"\n\n\n",
        b" 0",
        b"\xff\n          7\n          0",
    ];
    for text in texts {
        for _ in 0..2_000 {
            let _ = read(&damage(&mut rng, text));
        }
    }
}

#[test]
fn over_limit_is_always_refused() {
    let mut rng = Random::new(14);
    let mut refused = [0; 10];
    for _ in 0..500 {
        let bytes = over_limit(&mut rng);
        let refusal = read(&bytes).expect_err("one past a limit");
        refused[refusal.number as usize] += 1;
        check_first_bad_line(&bytes, refusal);
    }
    assert!(
        refused[2] > 20 && refused[4] > 200 && refused[6] > 20,
        "{refused:?}"
    );
    assert_eq!(refused[2] + refused[4] + refused[6], 500);
}
