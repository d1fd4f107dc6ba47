//! What a call leaves.

use deck::Refusal;
use deck::write::row;

use crate::verdict::Test;

#[derive(Clone, Debug, Default, PartialEq, Eq)]
pub struct Outcome {
    /// 0 holds, 1 broken, or a refusal's number × 2^32 + line.
    pub reply: u64,
    /// The words that stand in each table before the zeros: clauses, atoms, deferrals, store, scratch.
    pub words: [Vec<u32>; 5],
}

impl From<Refusal> for Outcome {
    fn from(refusal: Refusal) -> Self {
        Self {
            reply: (u64::from(refusal.number) << 32) + u64::from(refusal.line),
            words: Default::default(),
        }
    }
}

impl Outcome {
    /// A refusal of both tests.
    #[must_use]
    pub fn refused(refusal: Refusal) -> [Self; 2] {
        [(); 2].map(|()| Self::from(refusal))
    }

    /// A refusal's number and line.
    ///
    /// # Panics
    /// Never: both are halves of the reply.
    #[must_use]
    pub fn refusal(&self) -> Option<Refusal> {
        let [number, line] = [self.reply >> 32, self.reply & 0xffff_ffff];
        let [number, line] = [number, line].map(|half| u32::try_from(half).expect("a half"));
        (number > 0).then_some(Refusal { number, line })
    }

    /// Appends it as text, in rows. Of a verdict 48, the test (0 axioms, 1 clauses), 0 or 1, and where it is broken the line or
    /// number and the elements; 41 and a clause's record, 42 and an atom's, 45 and a deferral's, sorted, since their order is
    /// free; 43 and the ten numbers. Of a refusal 49, number and line.
    pub fn write(&self, test: Test, out: &mut Vec<u8>) {
        if let Some(Refusal { number, line }) = self.refusal() {
            row(out, &[49, number, line]);
            return;
        }
        let [clauses, atoms, deferrals, store, _] = &self.words;
        let (numbers, verdict) = store.split_at(10);
        let broken = u32::from(self.reply == 1);
        let mut told = vec![48, u32::from(test == Test::Clauses), broken];
        if self.reply == 1 {
            told.push(verdict[0]);
            told.extend(&verdict[2..]);
        }
        row(out, &told);
        let mut deferrals = deferrals.clone();
        deferrals.as_chunks_mut::<2>().0.sort_unstable();
        for (kind, width, words) in [(41, 3, clauses), (42, 6, atoms), (45, 2, &deferrals)] {
            for record in words.chunks(width) {
                row(out, &[&[kind], record].concat());
            }
        }
        row(out, &[&[43], numbers].concat());
    }
}
