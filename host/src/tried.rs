//! What a test says of a state.

use crate::sys::NUMBERS_BYTES;
use crate::words;

/// What is tested in a state.
#[derive(Clone, Copy, Debug, PartialEq, Eq, PartialOrd, Ord, Hash)]
pub enum Test {
    /// The deck's axioms, kinds 21 to 36, in the order of their lines.
    Axioms = 0,
    /// The clauses that the deck gives, in their order.
    Clauses = 1,
}

/// The verdict of a test.
#[derive(Clone, Debug, PartialEq, Eq, Hash)]
pub enum Tried {
    /// All that is tested holds.
    Holds,
    /// Something is broken.
    Broken {
        /// The first that is: an axiom's line in the deck, from 1, or a clause's number, from 0.
        number: u32,
        /// The least elements at which it is, compared one by one. A clause shows one for each of its variables, in rising
        /// order ([`Clause::variables`](crate::Clause::variables)); an axiom one for each variable of the standard's
        /// condition, and so an assertion none.
        elements: Vec<u32>,
    },
}

impl Tried {
    /// The verdict of a reply, with what it left in the store; none where the reply is a refusal.
    ///
    /// # Panics
    /// Only with a library that is not the one that this wrapper is for.
    pub(crate) fn of_reply(reply: u64, store: &[u8]) -> Option<Self> {
        match reply {
            0 => Some(Self::Holds),
            1 => Some(Self::broken(&store[NUMBERS_BYTES..])),
            _ => None,
        }
    }

    /// The line or number, how many elements, and these.
    fn broken(left: &[u8]) -> Self {
        let (front, rest) = left.split_at(8);
        let [number, shown] = words::of(front);
        let elements = rest.chunks_exact(4).map(|word| words::of::<1>(word)[0]);
        let elements: Vec<u32> = elements.take(words::index(shown)).collect();
        assert_eq!(elements.len(), words::index(shown), "a store of them all");
        Self::Broken { number, elements }
    }
}

#[cfg(test)]
mod tests {
    use super::Tried;

    /// Ten numbers, then these words.
    fn store(left: &[u32]) -> Vec<u8> {
        let words = (100..110).chain(left.iter().copied());
        words.flat_map(u32::to_le_bytes).collect()
    }

    fn broken(number: u32, elements: &[u32]) -> Tried {
        let elements = elements.to_vec();
        Tried::Broken { number, elements }
    }

    #[test]
    fn verdicts_of_replies() {
        let left = store(&[50, 3, 0, 63, 7, 9, 9]);
        assert_eq!(Tried::of_reply(0, &left), Some(Tried::Holds));
        assert_eq!(Tried::of_reply(1, &left), Some(broken(50, &[0, 63, 7])));
        let none = store(&[37, 0, 5]);
        assert_eq!(Tried::of_reply(1, &none), Some(broken(37, &[])));
        for refusal in [1 << 32, (13 << 32) + 1, 14 << 32] {
            assert_eq!(Tried::of_reply(refusal, &left), None);
        }
    }
}
