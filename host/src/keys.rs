//! The classes that a deck marks as data keys.

use crate::atom::ClassId;
use crate::fields;

/// The kind of a key mark's line.
const MARK: u32 = 14;

/// The marked classes of an accepted deck, rising, each once. The marks stand right behind the header.
pub(crate) fn of(deck: &[u8]) -> Vec<ClassId> {
    let lines = deck.split(|&byte| byte == b'\n').skip(1);
    let mut keys: Vec<ClassId> = lines.map_while(mark).collect();
    keys.sort_unstable();
    keys.dedup();
    keys
}

/// The class of a key mark's line; none of any other line.
fn mark(line: &[u8]) -> Option<ClassId> {
    let mut numbers = fields::of(line);
    let kind = numbers.next()??;
    let class = numbers.next()??;
    (kind == MARK).then_some(class)
}

#[cfg(test)]
mod tests {
    use super::of;

    /// Rows of two numbers behind a header.
    fn deck(rows: &[[u32; 2]]) -> Vec<u8> {
        let header = format!("{:11}{:11}{:11}{:11}{:11}\n", 0, 20, 0, 1, 3);
        let row = |[kind, number]: &[u32; 2]| format!("{kind:11}{number:11}\n");
        let rows: Vec<String> = rows.iter().map(row).collect();
        (header + &rows.concat()).into_bytes()
    }

    #[test]
    fn marks_behind_the_header() {
        assert_eq!(of(&deck(&[])), []);
        assert_eq!(of(&deck(&[[3, 14], [14, 5]])), []);
        let marked = deck(&[[14, 9], [14, 2], [14, 9], [3, 4], [29, 0]]);
        assert_eq!(of(&marked), [2, 9]);
        assert_eq!(of(b""), []);
    }
}
