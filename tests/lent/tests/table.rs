//! Lent tables: dirty, anywhere, and watched byte by byte.

use deck::random::Random;
use lent::{Lent, bytes, first_not_zero, words};

#[test]
fn words_are_low_byte_first() {
    assert_eq!(bytes(&[1, 0x0403_0201]), [1, 0, 0, 0, 1, 2, 3, 4]);
    assert_eq!(words(&[1, 0, 0, 0, 1, 2, 3, 4]), [1, 0x0403_0201]);
}

#[test]
fn the_first_byte_that_is_not_zero() {
    for len in [0, 1, 4_095, 4_096, 4_097, 20_000] {
        let mut table = vec![0; len];
        assert_eq!(first_not_zero(&table), None);
        for place in [0, len / 2, len.saturating_sub(1)] {
            if place < len {
                table[place] = 128;
                assert_eq!(first_not_zero(&table), Some(place));
                table[place] = 0;
            }
        }
    }
}

/// Two tables of one size differ, as do the places where they begin.
#[test]
fn tables_are_dirty_and_anywhere() {
    let mut rng = Random::new(1);
    let mut table = Lent::default();
    let mut places = [0; 8];
    let mut before = vec![0; 400];
    for _ in 0..400 {
        table.lend(&mut rng, 400);
        assert_ne!(table.bytes(), before);
        before = table.bytes().to_vec();
        places[table.pointer().addr() % 8] += 1;
    }
    assert!(places.iter().all(|&count| count > 10), "{places:?}");
}

/// A byte on either side is noticed, however large the table and whatever was lent before; one inside is not.
#[test]
fn bytes_beside_a_table_are_watched() {
    let mut rng = Random::new(2);
    let mut table = Lent::default();
    for len in [1_000, 0, 1, 12, 3_000_000, 40, 7] {
        for distance in [1, 2, 60] {
            table.lend(&mut rng, len);
            assert_eq!(table.written_beside(), None);
            // SAFETY: the bytes beside the table are the buffer's own.
            unsafe { *table.pointer().sub(distance) ^= 1 };
            assert_eq!(table.written_beside(), Some("before"));
            table.lend(&mut rng, len);
            // SAFETY: as above.
            unsafe { *table.pointer().add(len + distance - 1) ^= 1 };
            assert_eq!(table.written_beside(), Some("after"));
        }
        table.lend_filled(&mut rng, &vec![3; len]);
        assert_eq!(table.bytes(), vec![3; len]);
        table.bytes_mut().fill(0);
        assert_eq!((table.written_beside(), table.len()), (None, len));
    }
}
