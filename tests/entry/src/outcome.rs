//! What a call leaves.

use deck::Refusal;
use deck::write::row;

#[derive(Clone, Debug, Default, PartialEq, Eq)]
pub struct Outcome {
    /// 0, or a refusal's number × 2^32 + line.
    pub reply: u64,
    /// The words that stand in each table before the zeros.
    pub words: [Vec<u32>; 5],
}

impl From<Refusal> for Outcome {
    fn from(refusal: Refusal) -> Self {
        Self {
            reply: (u64::from(refusal.number) << 32) + u64::from(refusal.line),
            words: Default::default(),
        }
    }
}

impl Outcome {
    /// Rows in the columns of a deck: 41 and a clause's record, 42 and an atom's, 45 and a deferral's, sorted, since their
    /// order is free; 43 and the ten numbers. Of a refusal 49, number and line.
    #[must_use]
    pub fn write(&self) -> Vec<u8> {
        let mut out = Vec::new();
        if self.reply != 0 {
            let parts = [self.reply >> 32, self.reply & 0xffff_ffff];
            let [number, line] = parts.map(|part| u32::try_from(part).expect("half of the reply"));
            row(&mut out, &[49, number, line]);
            return out;
        }
        let [clauses, atoms, deferrals, numbers, _] = &self.words;
        let mut deferrals = deferrals.clone();
        deferrals.as_chunks_mut::<2>().0.sort_unstable();
        for (kind, width, words) in [(41, 3, clauses), (42, 6, atoms), (45, 2, &deferrals)] {
            for record in words.chunks(width) {
                row(&mut out, &[&[kind], record].concat());
            }
        }
        row(&mut out, &[&[43], &numbers[..]].concat());
        out
    }
}
