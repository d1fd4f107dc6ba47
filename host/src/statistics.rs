//! Counts over the clauses of a deck.

/// The statistics of `clausify_with_stats`, in its order.
#[derive(Clone, Copy, Debug, Default, PartialEq, Eq, Hash)]
pub struct Statistics {
    /// Clauses.
    pub total: u32,
    /// Clauses with at most one head atom.
    pub horn: u32,
    /// Clauses with two head atoms or more.
    pub disjunctive: u32,
    /// Clauses with no head atom: what their body says cannot be.
    pub bottom_headed: u32,
    /// Clauses with an `Exists` in the head.
    pub with_exists_head: u32,
    /// Deferrals.
    pub deferred: u32,
    /// Clauses whose wide body was split into named branches (option 1).
    pub decomposed: u32,
    /// Clauses left with more than eight body variables.
    pub refused: u32,
}

impl Statistics {
    /// The statistics with these words.
    #[must_use]
    pub fn of_words(words: [u32; 8]) -> Self {
        let [
            total,
            horn,
            disjunctive,
            bottom_headed,
            with_exists_head,
            deferred,
            decomposed,
            refused,
        ] = words;
        Self {
            total,
            horn,
            disjunctive,
            bottom_headed,
            with_exists_head,
            deferred,
            decomposed,
            refused,
        }
    }

    /// The eight numbers in their order.
    #[must_use]
    pub fn words(self) -> [u32; 8] {
        [
            self.total,
            self.horn,
            self.disjunctive,
            self.bottom_headed,
            self.with_exists_head,
            self.deferred,
            self.decomposed,
            self.refused,
        ]
    }
}

#[cfg(test)]
mod tests {
    use super::Statistics;

    #[test]
    fn words_in_their_order() {
        let words = [1, 2, 3, 4, 5, 6, 7, 8];
        let statistics = Statistics::of_words(words);
        assert_eq!((statistics.total, statistics.refused), (1, 8));
        assert_eq!(statistics.words(), words);
    }
}
