//! Sums over lines, and shares of them.

use super::lines::Line;
use crate::messages::grouped;

/// What lines have together.
#[derive(Clone, Copy, Default)]
pub struct Totals {
    pub lines: u64,
    pub instances: u64,
    /// The bytes that are known.
    pub bytes: u64,
    /// How many lines have unknown bytes, and how many objects these have.
    pub unknown: u64,
    pub waiting: u64,
    /// The most that unknown bytes can be, and how many objects have no such bound.
    pub at_most: u64,
    pub unbounded: u64,
}

impl Totals {
    pub fn of<'a>(lines: impl IntoIterator<Item = &'a Line>) -> Totals {
        let mut totals = Totals::default();
        for line in lines {
            totals.lines += 1;
            totals.instances += line.instances;
            totals.bytes += line.bytes.unwrap_or(0);
            totals.waiting += line.waiting();
            if line.bytes.is_none() {
                totals.unknown += 1;
                match line.at_most {
                    Some(bound) => totals.at_most = totals.at_most.saturating_add(bound),
                    None => totals.unbounded += line.instances,
                }
            }
        }
        totals
    }

    /// Formats the bytes. If some are unknown, there are more.
    pub fn bytes_text(&self) -> String {
        match self.waiting {
            0 => grouped(self.bytes),
            _ => format!(">= {}", grouped(self.bytes)),
        }
    }
}

/// Formats how many percent of `whole` a part is, with so many decimals, never more than it is.
pub fn percent(part: u64, whole: u64, decimals: usize) -> String {
    let unit = 10u128.pow(decimals as u32);
    let number = u128::from(part) * 100 * unit / u128::from(whole.max(1));
    format!("{}.{:0decimals$}", number / unit, number % unit)
}

#[cfg(test)]
mod tests {
    use super::percent;

    #[test]
    fn percents_are_never_too_high() {
        for (part, whole, decimals, expected) in [
            (1, 2, 1, "50.0"),
            (2, 3, 1, "66.6"),
            (2, 3, 3, "66.666"),
            (999_999, 1_000_000, 1, "99.9"),
            (7, 7, 1, "100.0"),
            (0, 0, 1, "0.0"),
            (u64::MAX, u64::MAX, 3, "100.000"),
            (1, 1_000_000, 3, "0.000"),
        ] {
            assert_eq!(percent(part, whole, decimals), expected);
        }
    }
}
