//! The cases of a text's search for classes; counts how often they occur.

use crate::coverage::Coverage;
use crate::tables::*;

/// Of an object or object array and the one before it: the same class word with no class row between them; with class rows
/// between them; with a class row of just that address between them; another class word, which the one before that has. Of an
/// object or object array: two class rows at the address of its class. Of a primitive array: two class rows with the name of its
/// type.
pub const SEARCHES: [i64; 6] = [
    SAME,
    CLASS_BETWEEN,
    SAME_CLASS_BETWEEN,
    ALTERNATING,
    TWO_AT_ADDRESS,
    TWO_NAMED,
];
const SAME: i64 = 0;
const CLASS_BETWEEN: i64 = 1;
const SAME_CLASS_BETWEEN: i64 = 2;
const ALTERNATING: i64 = 3;
const TWO_AT_ADDRESS: i64 = 4;
const TWO_NAMED: i64 = 5;

/// The letters of the primitive types.
const LETTERS: &[u8; 8] = b"ZCFDBSIJ";

/// What comes before an object or object array: the class words of the last two, and the addresses of the class rows since.
#[derive(Default)]
struct Before {
    words: [Option<u64>; 2],
    classes: Vec<u64>,
}

impl Before {
    /// Returns the case of an object or object array with this class word, if it is one of those above.
    fn case(&self, word: u64) -> Option<i64> {
        let [second, last] = self.words.map(|before| before == Some(word));
        match last {
            true if self.classes.is_empty() => Some(SAME),
            true if self.classes.contains(&word) => Some(SAME_CLASS_BETWEEN),
            true => Some(CLASS_BETWEEN),
            false => second.then_some(ALTERNATING),
        }
    }
}

/// Counts the cases in good tables whose text was written.
pub fn count_searches(tables: &OwnedTables, coverage: &mut Coverage) {
    let mut count = |case: Option<i64>| {
        case.into_iter()
            .for_each(|case| coverage.count("search", case))
    };
    let mut before = Before::default();
    for index in 0..tables.count() {
        let row = tables.row(index);
        match row[KIND] {
            kind::CLASS => before.classes.push(row[ADDRESS]),
            kind::PRIMITIVE_ARRAY => {
                let name = [b'[', LETTERS[row[TYPE] as usize]];
                let named = count_classes(tables, |class| tables.name_of(class) == name);
                count((named > 1).then_some(TWO_NAMED));
            }
            _ => {
                let word = row[CLASS];
                let at = count_classes(tables, |class| tables.row(class)[ADDRESS] == word);
                count((at > 1).then_some(TWO_AT_ADDRESS));
                count(before.case(word));
                before.words = [before.words[1], Some(word)];
                before.classes.clear();
            }
        }
    }
}

/// Returns how many class rows pass a test of their index.
fn count_classes(tables: &OwnedTables, test: impl Fn(usize) -> bool) -> usize {
    let classes = (0..tables.count()).filter(|index| tables.row(*index)[KIND] == kind::CLASS);
    classes.filter(|index| test(*index)).count()
}
