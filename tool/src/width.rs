//! How many columns a text takes on a terminal.

use crate::width_table::{WIDE, ZERO};

/// The columns of a text that is shown on one line.
pub fn of(text: &str) -> usize {
    text.chars().map(of_char).sum()
}

fn of_char(character: char) -> usize {
    if character.is_ascii() {
        1
    } else if is_among(character, ZERO) {
        0
    } else if is_among(character, WIDE) {
        2
    } else {
        1
    }
}

/// Whether a character lies in one of the ranges, which are in order.
fn is_among(character: char, ranges: &[(u32, u32)]) -> bool {
    let number = u32::from(character);
    let after = ranges.partition_point(|(first, _)| *first <= number);
    after > 0 && number <= ranges[after - 1].1
}

#[cfg(test)]
mod tests {
    use super::*;

    /// By the Unicode standard: East Asian Width W and F take two columns, and marks that do not space take none.
    #[test]
    fn columns() {
        assert_eq!((of("abc"), of("é"), of("e\u{301}")), (3, 1, 1));
        assert_eq!((of("東京"), of("\u{1F600}"), of("ｱ"), of("Ａ")), (4, 2, 1, 2));
        assert_eq!((of("한"), of("\u{200B}"), of("\u{E0100}"), of("…")), (2, 0, 0, 1));
    }

    /// The ranges are in order and apart, as the search asks.
    #[test]
    fn ranges_are_in_order() {
        for ranges in [WIDE, ZERO] {
            assert!(ranges.iter().all(|(first, last)| first <= last));
            assert!(ranges.windows(2).all(|pair| pair[0].1 < pair[1].0));
        }
    }
}
